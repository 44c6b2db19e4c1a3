#!/usr/bin/env python3
"""Covers the programs of examples/programs on their inputs with cov and with gcc's own coverage, and lists the lines whose counts differ.

Usage: scripts/compare_lines.py [COV [NAME..]]   (default: the script cov at the top of the repository, and all programs)

NAME.c is a program and NAME.K.in an input of it. cov covers it on all of them at once; gcc builds it with --coverage, it runs once for
each input, and gcov reads the counts. A line is compared where both give a count. cov counts how often a run comes to the line from
another one; gcov counts by gcc's own blocks, so a line that goes back to itself, and one right above a loop, whose block may be the loop's,
may have another count. The last line says how many lines were compared and how many differ. Status 1: a line differs that neither holds a
loop nor stands right above one.
"""
import re
import shutil
import subprocess
import sys
import tempfile
from pathlib import Path

TOP = Path(__file__).resolve().parent.parent
PROGRAMS = TOP / "examples" / "programs"
COUNT = re.compile(rb"^ *([0-9]+|#####)\*?: *([0-9]+):(.*)$")
LOOP = re.compile(rb"\b(for|while|do)\b")


def counts(text):
    """The count and the text of each line that has a count."""
    found = (COUNT.match(line) for line in text.split(b"\n"))
    return {int(it[2]): (0 if it[1] == b"#####" else int(it[1]), it[3]) for it in found if it}


def by_cov(program, inputs, cov, folder):
    done = subprocess.run([cov, "cover", program.name, *[it.name for it in inputs]], cwd=folder, stdout=subprocess.PIPE, check=True)
    # the report comes behind the texts of the runs
    return counts(done.stdout[done.stdout.index(b":    0:Source:"):])


def by_gcov(program, inputs, folder):
    subprocess.run(["gcc", "-std=c17", "-O0", "--coverage", "-o", "program", program.name], cwd=folder, check=True)
    for given in inputs:
        subprocess.run(["./program"], cwd=folder, input=given.read_bytes(), stdout=subprocess.DEVNULL)
    notes = next(Path(folder).glob("*.gcno"))
    done = subprocess.run(["gcov", "-t", notes.name], cwd=folder, stdout=subprocess.PIPE, stderr=subprocess.DEVNULL, check=True)
    return counts(done.stdout)


def is_by_loop(program, line):
    """Whether the line holds a loop, or the next one does."""
    return any(LOOP.search(text) for text in program.read_bytes().split(b"\n")[line - 1:line + 1])


def compare(program, cov):
    """How many lines were compared, and those that differ: line, cov's count, gcov's count, text."""
    with tempfile.TemporaryDirectory() as folder:
        shutil.copy(program, folder)
        inputs = sorted(PROGRAMS.glob(f"{program.stem}.*.in"))
        for given in inputs:
            shutil.copy(given, folder)
        ours, theirs = by_cov(program, inputs, cov, folder), by_gcov(program, inputs, folder)
    both = sorted(set(ours) & set(theirs))
    return len(both), [(line, ours[line][0], *theirs[line]) for line in both if ours[line][0] != theirs[line][0]]


def main():
    cov = str(Path(sys.argv[1]).resolve()) if len(sys.argv) > 1 else str(TOP / "cov")
    names = sys.argv[2:] or sorted(path.stem for path in PROGRAMS.glob("*.c"))
    lines, differ, plain = 0, 0, 0
    for name in names:
        compared, others = compare(PROGRAMS / f"{name}.c", cov)
        lines += compared
        differ += len(others)
        for line, ours, theirs, text in others:
            plain += not is_by_loop(PROGRAMS / f"{name}.c", line)
            print(f"{name}.c:{line}: cov {ours}, gcov {theirs}: {text.decode(errors='replace').strip()}")
    print(f"{len(names)} programs, {lines} lines with counts of both, {differ} differ, {plain} of them by no loop")
    return 1 if plain else 0


if __name__ == "__main__":
    sys.exit(main())
