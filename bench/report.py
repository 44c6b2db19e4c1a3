#!/usr/bin/env python3
"""Times `report` beside gcov, `cover` of a large source, and `cover` of many inputs beside as many runs.

Usage: bench/report.py [PROGRAM]   (default: crates/cov/out/cov, which ./cov builds)

The first source has 400 functions with loops and conditions, each called once by the main function. gcc builds it with --coverage, and
gcov reads what one run counted; cov builds it, runs it once, and reports, with the path limit 0 as gcov does, and with prime paths. The second source has about 1,000,000 bytes. Then a small
program is covered on 1,000 inputs, and on one input 1,000 times. Each figure is the best of some runs. The last line says whether the bounds
hold: `report` takes at most what gcov takes, the large source is covered in below 3 seconds and 700 MiB, its half in at least 0.4 times
that time, and 1,000 inputs take at most 1.1 times the sum of the runs on each.
"""
import os
import resource
import shutil
import subprocess
import sys
import tempfile
import time

from scratch import TOP, statements

MIB = 1 << 20
LARGE = 1_000_000

FUNCTION = """int f%d(int n) {
  int total = 0;
  for (int i = 0; i < n; i++) {
    if (i %% 3 == 0)
      total += i;
    else if (i %% 5 == 0)
      total -= 1;
    switch (i & 3) {
    case 0:
      total ^= 5;
      break;
    case 1:
      total++;
    default:
      total += 2;
    }
  }
  return total & 127;
}
"""

FILTER = """int getchar(void);
int putchar(int c);
int main(void) {
  int sum = 0;
  for (int c = getchar(); c >= 0; c = getchar()) {
    sum = (sum + c) % 256;
    if (c == '\\n')
      putchar(c);
  }
  return sum % 100;
}
"""


def many_functions(count):
    calls = "".join(f"  sum += f{k}(20);\n" for k in range(count))
    return "".join(FUNCTION % k for k in range(count)) + f"int main(void) {{\n  int sum = 0;\n{calls}  return sum & 63;\n}}\n"


def best(words, folder, runs, data=b""):
    """The seconds of the fastest of some runs, and its status."""
    fastest, status = None, None
    for _ in range(runs):
        start = time.perf_counter()
        status = subprocess.run(words, cwd=folder, input=data, stdout=subprocess.DEVNULL, stderr=subprocess.DEVNULL).returncode
        taken = time.perf_counter() - start
        fastest = taken if fastest is None else min(fastest, taken)
    return fastest, status


def peak(words, folder):
    """The most memory of one run, in bytes."""
    child = subprocess.Popen(words, cwd=folder, stdin=subprocess.DEVNULL, stdout=subprocess.DEVNULL)
    _, _, used = os.wait4(child.pid, 0)
    return used.ru_maxrss * 1024


def put(folder, name, text):
    with open(os.path.join(folder, name), "w", encoding="utf-8") as file:
        file.write(text)


def report_of(cov, folder, limit):
    """The seconds of `report` on the source many.c, built with this path limit."""
    subprocess.run([cov, "build", "--path-limit", str(limit), "many.c"], cwd=folder, check=True)
    data = os.path.join(folder, "many.gcda")
    if os.path.exists(data):
        os.remove(data)
    subprocess.run([cov, "run", "many"], cwd=folder, stdin=subprocess.DEVNULL, stdout=subprocess.DEVNULL)
    seconds, status = best([cov, "report", "many"], folder, 20)
    if status != 0:
        sys.exit(f"report ends with {status}")
    return seconds


def reports(cov, folder):
    """The seconds of `report` without paths and with them, and of gcov, on the source with 400 functions."""
    put(folder, "many.c", many_functions(400))
    ours, listed = report_of(cov, folder, 0), report_of(cov, folder, 10_000)
    there = os.path.join(folder, "gcc")
    os.mkdir(there)
    shutil.copy(os.path.join(folder, "many.c"), there)
    subprocess.run(["gcc", "-O0", "--coverage", "-o", "many", "many.c"], cwd=there, check=True)
    subprocess.run(["./many"], cwd=there)
    notes = next(it for it in os.listdir(there) if it.endswith(".gcno"))
    theirs, _ = best(["gcov", "-b", notes], there, 20)
    return ours, listed, theirs


def covers(cov, folder, size):
    """The seconds and the bytes of `cover` of a source of about this size on an empty input."""
    put(folder, "large.c", statements(size - 100) + "int main(void) {\n  return f0(9) & 63;\n}\n")
    put(folder, "empty", "")
    words = [cov, "cover", "large.c", "empty"]
    seconds, status = best(words, folder, 5)
    if status != 0:
        sys.exit(f"cover of {size} bytes ends with {status}")
    return seconds, peak(words, folder)


def inputs(cov, folder):
    """The seconds of `cover` on 1,000 inputs, and the sum of covers on each less what one takes without an input's run."""
    put(folder, "filter.c", FILTER)
    names = []
    for k in range(1000):
        names.append(f"in{k}")
        put(folder, names[-1], f"line {k}\n" * 400)
    all_at_once, status = best([cov, "cover", "filter.c", *names], folder, 5)
    if status != 0:
        sys.exit(f"cover of 1,000 inputs ends with {status}")
    start = time.perf_counter()
    for name in names:
        subprocess.run([cov, "cover", "filter.c", name], cwd=folder, stdout=subprocess.DEVNULL)
    return all_at_once, time.perf_counter() - start


def main():
    cov = os.path.abspath(sys.argv[1]) if len(sys.argv) > 1 else os.path.join(TOP, "crates", "cov", "out", "cov")
    resource.setrlimit(resource.RLIMIT_STACK, (64 * MIB, resource.getrlimit(resource.RLIMIT_STACK)[1]))
    with tempfile.TemporaryDirectory() as folder:
        report, listed, gcov = reports(cov, folder)
        print(f"400 functions: report {report * 1000:.1f} ms, with prime paths {listed * 1000:.1f} ms, gcov {gcov * 1000:.1f} ms")
        half, half_memory = covers(cov, folder, LARGE // 2)
        whole, memory = covers(cov, folder, LARGE)
        print(f"cover of {LARGE // 2:,} bytes: {half:.2f} s, {half_memory / MIB:.0f} MiB")
        print(f"cover of {LARGE:,} bytes: {whole:.2f} s, {memory / MIB:.0f} MiB")
        together, apart = inputs(cov, folder)
        print(f"cover on 1,000 inputs: {together:.2f} s; on each alone: {apart:.2f} s")
    good = report <= gcov and whole < 3 and memory < 700 * MIB and half >= 0.4 * whole and together <= 1.1 * apart
    print("the bounds hold" if good else "a bound is broken")
    return 0 if good else 1


if __name__ == "__main__":
    sys.exit(main())
