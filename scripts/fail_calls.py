#!/usr/bin/env python3
"""Fails each call of the system that the program makes, one at a time, over all commands.

Usage: scripts/fail_calls.py [PROGRAM]   (default: crates/cov/out/cov, which ./cov builds)

A small library, built by gcc and loaded before the C library, fails the Nth call for memory, or the Nth opening, reading, writing, syncing
or renaming, for each N until the command makes fewer calls; it interrupts the Nth reading and writing; and it lets each reading and
writing take one byte. Behind each run the answer has to be the ordinary one or the one that such a fault has, the output a front of the
ordinary output, and each file as it was or as the whole command leaves it; no file `NAME.new` may be left over. The last line counts the runs, and says how many
came out otherwise; then the status is 1.
"""
import os
import shutil
import subprocess
import sys
import tempfile
from pathlib import Path

TOP = Path(__file__).resolve().parent.parent

PRELOAD = r"""
#define _GNU_SOURCE
#include <dlfcn.h>
#include <errno.h>
#include <fcntl.h>
#include <stdarg.h>
#include <stdlib.h>
#include <string.h>
#include <sys/syscall.h>
#include <unistd.h>

void *__libc_malloc(size_t);
void *__libc_realloc(void *, size_t);
void *__libc_calloc(size_t, size_t);

static const char *kind = "";
static long at, seen;

__attribute__((constructor)) static void begin(void) {
  const char *k = getenv("FAIL_KIND"), *n = getenv("FAIL_AT");
  if (k && n) { at = atol(n); seen = 0; kind = k; }
}

static int is(const char *name) { return strcmp(kind, name) == 0; }

static int fires(const char *name) {
  if (!is(name) || ++seen != at) return 0;
  const char *mark = getenv("FAIL_MARK");
  int made = mark ? syscall(SYS_openat, AT_FDCWD, mark, O_CREAT | O_WRONLY, 0600) : -1;
  if (made >= 0) syscall(SYS_close, made);
  return 1;
}

void *malloc(size_t n) { if (fires("memory")) { errno = ENOMEM; return 0; } return __libc_malloc(n); }
void *realloc(void *p, size_t n) { if (fires("memory")) { errno = ENOMEM; return 0; } return __libc_realloc(p, n); }
void *calloc(size_t m, size_t n) { if (fires("memory")) { errno = ENOMEM; return 0; } return __libc_calloc(m, n); }

ssize_t read(int fd, void *to, size_t n) {
  if (fires("read")) { errno = EIO; return -1; }
  if (fires("read again")) { errno = EINTR; return -1; }
  if (is("one byte") && n > 1) n = 1;
  return syscall(SYS_read, fd, to, n);
}
static ssize_t put(int fd, const void *from, size_t n) {
  if (fires("write")) { errno = ENOSPC; return -1; }
  if (fires("write again")) { errno = EINTR; return -1; }
  if (is("one byte") && n > 1) n = 1;
  return syscall(SYS_write, fd, from, n);
}
ssize_t write(int fd, const void *from, size_t n) { return put(fd, from, n); }
ssize_t __write(int fd, const void *from, size_t n) { return put(fd, from, n); }

static int opened(int dir, const char *name, int flags, int mode) {
  if (fires("open")) { errno = EACCES; return -1; }
  return syscall(SYS_openat, dir, name, flags, mode);
}
#define MODE int mode = 0; if (flags & O_CREAT) { va_list all; va_start(all, flags); mode = va_arg(all, int); va_end(all); }
int open(const char *name, int flags, ...) { MODE return opened(AT_FDCWD, name, flags, mode); }
int open64(const char *name, int flags, ...) { MODE return opened(AT_FDCWD, name, flags, mode); }
int openat(int dir, const char *name, int flags, ...) { MODE return opened(dir, name, flags, mode); }
int openat64(int dir, const char *name, int flags, ...) { MODE return opened(dir, name, flags, mode); }
int fsync(int fd) { if (fires("sync")) { errno = EIO; return -1; } return syscall(SYS_fsync, fd); }
int fdatasync(int fd) { if (fires("sync")) { errno = EIO; return -1; } return syscall(SYS_fdatasync, fd); }
int rename(const char *from, const char *to) {
  if (fires("rename")) { errno = EACCES; return -1; }
  return syscall(SYS_renameat2, AT_FDCWD, from, AT_FDCWD, to, 0);
}
int renameat(int a, const char *from, int b, const char *to) {
  if (fires("rename")) { errno = EACCES; return -1; }
  return syscall(SYS_renameat2, a, from, b, to, 0);
}
"""

SOURCE = b"""int putchar(int c);
int getchar(void);
int twice(int n) { return n + n; }
int main(void) {
  int n = 0;
  while (getchar() == 'a') {
    n = twice(n + 1);
    putchar('a' + n % 26);
  }
  return n % 100;
}
"""

INPUT = b"aaab"

# Each command with the files that are there at first, and those that it may replace, in their order.
COMMANDS = (
    ("build P.c", ("P.c",), ("P.gcno", "P.code")),
    ("build P.c", ("P.c", "P.gcno", "P.code"), ("P.gcno", "P.code")),
    ("build --plain P.c", ("P.c",), ("P.code",)),
    ("run P", ("P.code",), ("P.gcda",)),
    ("run P", ("P.code", "P.gcda"), ("P.gcda",)),
    ("merge P P Q", ("P.gcda",), ("Q.gcda",)),
    ("report P", ("P.c", "P.gcno", "P.gcda"), ()),
    ("report P", ("P.c", "P.gcno"), ()),
    ("cover P.c one two", ("P.c", "one", "two"), ()),
    ("cover P.c missing", ("P.c",), ()),
    ("no command", (), ()),
)

FAULTS = {
    "memory": {(123, b"cov: no memory\n")},
    "open": {(120, b"cov: folder fault\n")},
    "read": {(120, b"cov: folder fault\n"), (120, b"cov: read fault\n")},
    "write": {(120, b"cov: folder fault\n"), (120, b"cov: write fault\n")},
    "sync": {(120, b"cov: folder fault\n")},
    "rename": {(120, b"cov: folder fault\n")},
    "read again": set(),
    "write again": set(),
}

MOST = 100_000


class Bench:
    def __init__(self, program, folder):
        self.program, self.folder = program, folder
        self.library = folder / "fail.so"
        self.mark = folder / "fired"
        text = folder / "fail.c"
        text.write_text(PRELOAD)
        subprocess.run(["gcc", "-O2", "-fPIC", "-shared", "-o", self.library, text, "-ldl"], check=True)
        self.files = {"P.c": SOURCE, "one": b"aab", "two": b"b"}
        made = self.run("build P.c", ("P.c",))[3]
        self.files.update({name: made[name] for name in ("P.gcno", "P.code")})
        made = self.run("run P", ("P.code",))[3]
        self.files["P.gcda"] = made["P.gcda"]

    def run(self, words, names, kind=None, at=0):
        """The status, output, error output and files that a command leaves."""
        here = self.folder / "here"
        shutil.rmtree(here, ignore_errors=True)
        here.mkdir()
        for name in names:
            (here / name).write_bytes(self.files[name])
        self.mark.unlink(missing_ok=True)
        env = dict(os.environ)
        if kind:
            env.update(LD_PRELOAD=str(self.library), FAIL_KIND=kind, FAIL_AT=str(at), FAIL_MARK=str(self.mark))
        done = subprocess.run([self.program, *words.split()], cwd=here, input=INPUT, capture_output=True, env=env, timeout=60)
        left = {path.name: path.read_bytes() for path in here.iterdir()}
        return done.returncode, done.stdout, done.stderr, left

    def wrong(self, whole, left, names, replaced, kind):
        """What is wrong with what a run left, beside the whole run."""
        status, out, err, files = left
        if (status, err) == (whole[0], whole[2]) and out == whole[1] and files == whole[3]:
            return None
        before = {name: self.files[name] for name in names}
        told = (status, err) in FAULTS[kind] or (kind == "write" and status in {known for known, _ in FAULTS[kind]} | {whole[0]}
                                                 and any(line.startswith(err) for _, line in FAULTS[kind] | {(0, whole[2])}))
        if kind == "memory" and status == 123 and b"cov: no memory\n".startswith(err):
            told = True
        if not told:
            return f"status {status}, {err!r}"
        if not whole[1].startswith(out):
            return "an output that is no front of the whole"
        done = [files.get(name) == whole[3].get(name) for name in replaced]
        for name in set(files) | set(before):
            if name in replaced:
                if files.get(name) not in (before.get(name), whole[3].get(name)):
                    return f"the file {name} is neither the old nor the new"
            elif files.get(name) != before.get(name):
                return f"the file {name} has changed"
        if sorted(done, reverse=True) != done and before.get(replaced[0]) != whole[3].get(replaced[0]):
            return "a later file is replaced before an earlier"
        return None

    def try_all(self, words, names, replaced):
        """How many runs were made, and what was wrong in which."""
        whole = self.run(words, names)
        runs, wrongs = 0, []
        for kind in FAULTS:
            for at in range(1, MOST):
                left = self.run(words, names, kind, at)
                if not self.mark.exists():
                    break
                runs += 1
                found = self.wrong(whole, left, names, replaced, kind)
                if found:
                    wrongs.append(f"{words}: {kind} {at}: {found}")
        left = self.run(words, names, "one byte")
        if left != whole:
            wrongs.append(f"{words}: one byte at a time: another result")
        return runs + 1, wrongs


def main():
    program = os.path.abspath(sys.argv[1] if len(sys.argv) > 1 else TOP / "crates" / "cov" / "out" / "cov")
    total, bad = 0, 0
    with tempfile.TemporaryDirectory() as made:
        bench = Bench(program, Path(made))
        for words, names, replaced in COMMANDS:
            runs, wrongs = bench.try_all(words, names, replaced)
            total, bad = total + runs, bad + len(wrongs)
            print(f"{words} with {' '.join(names) or 'no file'}: {runs} runs, {len(wrongs)} wrong", flush=True)
            for line in wrongs[:10]:
                print("  " + line)
    print(f"{total} runs, {bad} came out otherwise")
    sys.exit(1 if bad else 0)


if __name__ == "__main__":
    main()
