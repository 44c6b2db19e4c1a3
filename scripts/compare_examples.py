#!/usr/bin/env python3
"""Runs the programs of examples/programs with cov and with gcc, and compares both with the output and the status kept beside them.

Usage: scripts/compare_examples.py [COV [NAME..]]   (default: the script cov at the top of the repository, and all programs)

NAME.c is a program, NAME.K.in an input of it, NAME.K.out what it writes on that input, and NAME.K.status its exit status where that isn't 0.
cov builds the program by `build --plain` in a new temporary folder and runs it by `run`; gcc builds it with checks of undefined behaviour.
Status 1: something differs.
"""
import shutil
import subprocess
import sys
import tempfile
from pathlib import Path

TOP = Path(__file__).resolve().parent.parent
PROGRAMS = TOP / "examples" / "programs"
CHECKS = ["-std=c17", "-fsanitize=undefined", "-fno-sanitize-recover=all"]


def ran(words, folder, data=b""):
    """The status and the output of a command."""
    done = subprocess.run(words, cwd=folder, input=data, stdout=subprocess.PIPE, stderr=subprocess.PIPE)
    return done.returncode, done.stdout


def expected(given):
    """The status and the output that are kept for an input."""
    status = given.with_suffix(".status")
    return int(status.read_text()) if status.exists() else 0, given.with_suffix(".out").read_bytes()


def compare(program, cov, folder):
    """How many inputs of a program were run, and what differs."""
    shutil.copy(program, folder)
    built, _ = ran([cov, "build", "--plain", program.name], folder)
    if built != 0:
        return 0, [f"{program.name}: cov build ends with {built}"]
    subprocess.run(["gcc", *CHECKS, "-o", "program", program.name], cwd=folder, check=True)
    wrong, count = [], 0
    for given in sorted(PROGRAMS.glob(f"{program.stem}.*.in")):
        count += 1
        data, wanted = given.read_bytes(), expected(given)
        for who, words in (("cov", [cov, "run", program.stem]), ("gcc", ["./program"])):
            if ran(words, folder, data) != wanted:
                wrong.append(f"{given.name}: {who} differs from what is kept")
    return count, wrong


def main():
    cov = str(Path(sys.argv[1]).resolve()) if len(sys.argv) > 1 else str(TOP / "cov")
    names = sys.argv[2:] or sorted(path.stem for path in PROGRAMS.glob("*.c"))
    count, wrong = 0, []
    for name in names:
        with tempfile.TemporaryDirectory() as folder:
            more, differ = compare(PROGRAMS / f"{name}.c", cov, folder)
        count += more
        wrong += differ
    for line in wrong:
        print(line)
    print(f"{len(names)} programs, {count} inputs, {len(wrong)} differences")
    return 1 if wrong else 0


if __name__ == "__main__":
    sys.exit(main())
