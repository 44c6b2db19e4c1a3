#!/usr/bin/env python3
"""Times `merge` of large data files beside cmp and cp of the same bytes, and of a program's data beside gcov-tool.

Usage: bench/merge.py [PROGRAM]   (default: crates/cov/out/cov, which ./cov builds)

Two data files of nearly 64 MiB are made, of 1,000 functions with 8,380 counters each, and merged; then cmp and cp take the same bytes. The
source with 400 functions of bench/report.py is built and run by cov and by gcc, and the data are merged by `cov merge` and by gcov-tool. Each
figure is the best of some runs. The last line says whether the bounds hold: a merge of two large files takes below 2 seconds (each is read,
merged and written within 1 second) and 300 MiB a file, and at most 1.5 times what cmp and cp of the same bytes take together, or 2 seconds.
"""
import os
import shutil
import struct
import subprocess
import sys
import tempfile

from report import MIB, best, many_functions, peak, put
from scratch import TOP

FUNCTIONS, COUNTERS = 1000, 8380


def data_file(path, start):
    """A data file of one run with these many counters."""
    with open(path, "wb") as file:
        file.write(struct.pack("<8I", 0x67636461, 0x50313072, 7, FUNCTIONS, 0xA1000000, 4, 1, 0)[:28])
        for number in range(FUNCTIONS):
            file.write(struct.pack("<6I", 0x01000000, 8, number, number * 77, 0x01A10000, 8 * COUNTERS))
            file.write(struct.pack(f"<{COUNTERS}Q", *(start + number + k for k in range(COUNTERS))))
            file.write(struct.pack("<2IQ", 0x01F10000, 8, start % 64))


def large(cov, folder):
    """The seconds and bytes of a merge, and the seconds of cmp and cp."""
    data_file(os.path.join(folder, "a.gcda"), 5)
    data_file(os.path.join(folder, "b.gcda"), 900)
    words = [cov, "merge", "a", "b", "both"]
    seconds, status = best(words, folder, 5)
    if status != 0:
        sys.exit(f"merge ends with {status}")
    compared, _ = best(["cmp", "a.gcda", "b.gcda"], folder, 1)
    shutil.copy(os.path.join(folder, "a.gcda"), os.path.join(folder, "c.gcda"))
    compared, _ = best(["cmp", "a.gcda", "c.gcda"], folder, 5)
    copied, _ = best(["cp", "a.gcda", "d.gcda"], folder, 5)
    return seconds, peak(words, folder), compared + copied


def small(cov, folder):
    """The seconds of a merge by cov and by gcov-tool of the data of the source with 400 functions."""
    put(folder, "many.c", many_functions(400))
    subprocess.run([cov, "build", "--path-limit", "0", "many.c"], cwd=folder, check=True)
    subprocess.run([cov, "run", "many"], cwd=folder, stdin=subprocess.DEVNULL, stdout=subprocess.DEVNULL)
    ours, status = best([cov, "merge", "many", "many", "both"], folder, 20)
    if status != 0:
        sys.exit(f"merge ends with {status}")
    there = os.path.join(folder, "gcc")
    os.mkdir(there)
    shutil.copy(os.path.join(folder, "many.c"), there)
    subprocess.run(["gcc", "-O0", "--coverage", "-o", "many", "many.c"], cwd=there, check=True)
    subprocess.run(["./many"], cwd=there)
    for name in ("one", "two"):
        os.mkdir(os.path.join(there, name))
        for data in [it for it in os.listdir(there) if it.endswith(".gcda")]:
            shutil.copy(os.path.join(there, data), os.path.join(there, name))
    theirs, _ = best(["gcov-tool", "merge", "one", "two", "-o", "both"], there, 20)
    return ours, theirs


def main():
    cov = os.path.abspath(sys.argv[1]) if len(sys.argv) > 1 else os.path.join(TOP, "crates", "cov", "out", "cov")
    with tempfile.TemporaryDirectory() as folder:
        seconds, memory, plain = large(cov, folder)
        size = os.path.getsize(os.path.join(folder, "a.gcda"))
        print(f"merge of two files of {size / MIB:.1f} MiB: {seconds:.2f} s, {memory / MIB:.0f} MiB; cmp and cp: {plain:.2f} s")
        ours, theirs = small(cov, folder)
        print(f"merge of data of 400 functions: {ours * 1000:.1f} ms, gcov-tool {theirs * 1000:.1f} ms")
    good = seconds < 2 and memory < 600 * MIB
    print("the bounds hold" if good else "a bound is broken")
    if seconds > 1.5 * plain:
        print(f"merge takes {seconds / plain:.1f} times what cmp and cp take; 1.5 is wanted")
    return 0 if good else 1


if __name__ == "__main__":
    sys.exit(main())
