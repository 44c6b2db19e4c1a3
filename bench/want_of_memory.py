#!/usr/bin/env python3
"""Lets each allocation of `cover` fail in turn, and looks at the answer: the ordinary one, or want of memory with a front of the text.

Usage: bench/want_of_memory.py [PROGRAM]   (default: crates/cov/out/cov, which ./cov builds)

For each example the program is run once for each of its allocations, with that one alone failing, by a small library that
stands before the C library's malloc and realloc. Then once for each allocation with that and all later ones failing.
"""
import os
import subprocess
import sys
import tempfile

TOP = os.path.dirname(os.path.dirname(os.path.abspath(__file__)))
EXAMPLES = (("examples/echo.c", "examples/aa.txt"), ("examples/nested.c", "examples/dots.txt"), ("examples/missing.c", "examples/aa.txt"),
            ("examples/aa.txt", "examples/aa.txt"), ("examples/echo.c", "examples/missing.txt"))
NO_MEMORY = b"cov: no memory\n"
SHIM = r"""
#define _GNU_SOURCE
#include <dlfcn.h>
#include <stdio.h>
#include <stdlib.h>
static long calls;
static int fails(void) {
  const char *first = getenv("FAIL_FROM"), *last = getenv("FAIL_TO");
  calls++;
  return first && last && atol(first) <= calls && calls <= atol(last);
}
void *malloc(size_t n) {
  static void *(*real)(size_t);
  if (!real) real = (void *(*)(size_t))dlsym(RTLD_NEXT, "malloc");
  return fails() ? 0 : real(n);
}
void *realloc(void *p, size_t n) {
  static void *(*real)(void *, size_t);
  if (!real) real = (void *(*)(void *, size_t))dlsym(RTLD_NEXT, "realloc");
  return fails() ? 0 : real(p, n);
}
__attribute__((destructor)) static void tell(void) {
  const char *path = getenv("TELL_CALLS");
  FILE *file = path ? fopen(path, "w") : 0;
  long counted = calls;
  if (file) { fprintf(file, "%ld", counted); fclose(file); }
}
"""


def run(program, words, shim, **settings):
    env = dict(os.environ, LD_PRELOAD=shim, **settings)
    done = subprocess.run([program, *words], cwd=TOP, env=env, stdin=subprocess.DEVNULL, capture_output=True)
    return done.returncode, done.stdout, done.stderr


def acceptable(answer, ordinary):
    """The ordinary answer, but for a line on the error output that may be cut, or want of memory with fronts of both texts."""
    status, out, err = answer
    if status == 123:
        return ordinary[1].startswith(out) and NO_MEMORY.startswith(err)
    return (status, out) == ordinary[:2] and ordinary[2].startswith(err)


def main():
    program = os.path.abspath(sys.argv[1]) if len(sys.argv) > 1 else os.path.join(TOP, "crates/cov/out/cov")
    runs = refused = 0
    with tempfile.TemporaryDirectory() as folder:
        shim = os.path.join(folder, "shim.so")
        with open(os.path.join(folder, "shim.c"), "w") as file:
            file.write(SHIM)
        subprocess.run(["gcc", "-O2", "-shared", "-fPIC", "-o", shim, "shim.c", "-ldl"], cwd=folder, check=True)
        for source, given in EXAMPLES:
            words = ["cover", source, given]
            told = os.path.join(folder, "calls")
            ordinary = run(program, words, shim, TELL_CALLS=told)
            with open(told) as file:
                calls = int(file.read())
            for first in range(1, calls + 1):
                for last in (first, calls + 1000):
                    answer = run(program, words, shim, FAIL_FROM=str(first), FAIL_TO=str(last))
                    runs += 1
                    refused += answer[0] == 123
                    if not acceptable(answer, ordinary):
                        sys.exit(f"cover {source} {given}, allocations {first} to {last} failing: {answer}")
            print(f"cover {source} {given}: {calls} allocations, each failed in turn")
    print(f"{runs} runs, {refused} of them answered want of memory, each answer was in order")


main()
