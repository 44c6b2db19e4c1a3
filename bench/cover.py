#!/usr/bin/env python3
"""Times `cover` and its peak memory on growing inputs and sources, and the start-up on an empty program.

Usage: bench/cover.py [PROGRAM]   (default: crates/cov/out/cov, which ./cov builds)

Each row is the best of thirty runs. A growth is how many times the processor time or the peak memory grew from the row above,
to be held against how many times the size grew. The last line says whether the bounds hold: time and memory grow at most 1.1 times as
much as the size, 16 MiB of input take below 2 seconds and 1 GiB, an empty program starts and ends within 30 ms.
"""
import os
import subprocess
import sys
import tempfile

TOP = os.path.dirname(os.path.dirname(os.path.abspath(__file__)))
MIB = 1 << 20
RUNS = 30
SLACK = 1.1


# Runs a program and prints its processor and wall microseconds and its peak KiB. A small process of its own, since a child's
# peak counts what its parent had.
METER = r"""
#include <fcntl.h>
#include <stdio.h>
#include <sys/resource.h>
#include <sys/time.h>
#include <sys/wait.h>
#include <unistd.h>
static long micros(struct timeval t) { return t.tv_sec * 1000000L + t.tv_usec; }
int main(int argc, char **argv) {
  struct timeval before, after;
  struct rusage usage;
  int status;
  (void)argc;
  gettimeofday(&before, 0);
  pid_t child = fork();
  if (child == 0) {
    dup2(open("/dev/null", O_RDWR), 1);
    execv(argv[1], argv + 1);
    _exit(127);
  }
  wait4(child, &status, 0, &usage);
  gettimeofday(&after, 0);
  printf("%ld %ld %ld\n", micros(usage.ru_utime) + micros(usage.ru_stime), micros(after) - micros(before), usage.ru_maxrss);
  return WIFEXITED(status) ? WEXITSTATUS(status) : 127;
}
"""


def run(meter, program, words, folder):
    """The processor seconds, wall seconds and peak bytes of one run."""
    done = subprocess.run([meter, program, *words], cwd=folder, stdin=subprocess.DEVNULL, capture_output=True, text=True)
    if done.returncode != 0:
        sys.exit(f"cover ended with {done.returncode}")
    cpu, wall, peak = (int(number) for number in done.stdout.split())
    return cpu / 1e6, wall / 1e6, peak * 1024


def best(meter, program, commands, folder):
    """For each command the least of some runs; the commands take turns, so that a slow moment of the machine meets all."""
    runs = [[run(meter, program, words, folder) for words in commands] for _ in range(RUNS)]
    return [[min(column) for column in zip(*(round[i] for round in runs))] for i in range(len(commands))]


def write(folder, name, content):
    with open(os.path.join(folder, name), "wb") as file:
        file.write(content)


def table(meter, program, folder, title, rows):
    """Prints the rows (label, size, words); answers the measured ones and whether they grow in proportion."""
    print(title)
    print(f"{'':>12} {'cpu s':>9} {'wall s':>9} {'MiB':>8} {'size x':>7} {'time x':>7} {'memory x':>9}")
    measured, proportional = [], True
    figures = best(meter, program, [words for _, _, words in rows], folder)
    for (label, size, _), (seconds, wall, peak) in zip(rows, figures):
        growth = ""
        if measured:
            _, size_before, seconds_before, _, peak_before = measured[-1]
            grown = size / size_before
            slower, larger = seconds / seconds_before, peak / peak_before
            growth = f"{grown:7.2f} {slower:7.2f} {larger:9.2f}"
            proportional = proportional and slower <= SLACK * grown and larger <= SLACK * grown
        print(f"{label:>12} {seconds:9.3f} {wall:9.3f} {peak / MIB:8.1f} {growth}")
        measured.append((label, size, seconds, wall, peak))
    return measured, proportional


def main():
    program = os.path.abspath(sys.argv[1]) if len(sys.argv) > 1 else os.path.join(TOP, "crates/cov/out/cov")
    with tempfile.TemporaryDirectory() as folder:
        meter = os.path.join(folder, "meter")
        write(folder, "meter.c", METER.encode())
        subprocess.run(["gcc", "-O2", "-o", meter, "meter.c"], cwd=folder, check=True)
        loop = b"int main(void) {\nwhile (getchar() == 'a') {\nputchar('b');\n}\nreturn 0;\n}\n"
        silent = b"int main(void) {\nwhile (getchar() == 'a') {\n}\nreturn 0;\n}\n"
        write(folder, "loop.c", loop)
        write(folder, "silent.c", silent)
        write(folder, "empty.c", b"int main(void) {\nreturn 0;\n}\n")
        write(folder, "empty.txt", b"")
        for mib in (1, 4, 16):
            write(folder, f"{mib}.txt", b"a" * (mib * MIB))
        line, lines = b"putchar('x');\n", (250_000, 500_000, 1_000_000)
        for size in lines:
            write(folder, f"{size}.c", b"int main(void) {\n" + line * (size // len(line) - 2) + b"return 0;\n}\n")

        ok = True
        for name in ("loop.c", "silent.c"):
            rows = [(f"{mib} MiB", mib, ["cover", name, f"{mib}.txt"]) for mib in (1, 4, 16)]
            what = "each byte is read and one is put" if name == "loop.c" else "each byte is read"
            measured, proportional = table(meter, program, folder, f"Input, where {what}:", rows)
            ok = ok and proportional and measured[-1][3] < 2 and measured[-1][4] < 1024 * MIB
        rows = [(f"{size} B", size, ["cover", f"{size}.c", "empty.txt"]) for size in lines]
        _, proportional = table(meter, program, folder, "Source of putchar lines:", rows)
        ok = ok and proportional
        (_, wall, _), = best(meter, program, [["cover", "empty.c", "empty.txt"]], folder)
        print(f"An empty program: {1000 * wall:.1f} ms")
        ok = ok and wall < 0.03
    print("bounds hold" if ok else "bounds don't hold")
    sys.exit(0 if ok else 1)


main()
