#!/usr/bin/env python3
"""Runs random codes that pass the checks: none may be stuck, crash, or take too long.

Usage: scripts/random_codes.py [PROGRAM [RUNS [SEED]]]   (default: crates/cov/out/cov, which ./cov builds; 2000 runs, seed 1)

Each is the code of one of examples/programs, with counting or without, with one to four bytes changed at random places; codes that break a
rule are refused and don't count. A run has 20,000 turns and one of the program's inputs. It has to end by a status of the program, a trap,
or out of turns, or be refused for what it would count, and within ten seconds. The last line counts the ends; status 1: a run ended
otherwise.
"""
import collections
import os
import random
import re
import subprocess
import sys
import tempfile
from pathlib import Path

TOP = Path(__file__).resolve().parent.parent
ENDS = {
    "trapped": (121, r"cov: trapped [a-z ]+ at line \d+\n"),
    "out of turns": (122, r"cov: out of turns after 20000\n"),
    "counted otherwise": (120, r"cov: (other shape of function \d+|count passed in function \d+ at counter \d+|runs passed)\n"),
}


def codes_of(cov, folder):
    """The bytes of each program's code, plain and with counting, with its inputs."""
    found = []
    for source in sorted((TOP / "examples" / "programs").glob("*.c")):
        inputs = [path.read_bytes() for path in sorted(source.parent.glob(f"{source.stem}.*.in"))] or [b""]
        (folder / source.name).write_bytes(source.read_bytes())
        for words in (["build", "--plain", source.name], ["build", source.name]):
            subprocess.run([cov, *words], cwd=folder, check=True, capture_output=True)
            found.append(((folder / f"{source.stem}.code").read_bytes(), inputs))
    return found


def changed(code, dice):
    """The code with some bytes changed."""
    bytes_ = bytearray(code)
    for _ in range(dice.randint(1, 4)):
        at = dice.randrange(len(bytes_))
        bytes_[at] = dice.choice((bytes_[at] ^ (1 << dice.randrange(8)), dice.randrange(256), (bytes_[at] + dice.choice((1, 255))) % 256))
    return bytes(bytes_)


def end_of(cov, folder, code, given):
    """How a run of the code ends; None where a rule is broken."""
    for path in folder.glob("x.*"):
        path.unlink()
    (folder / "x.code").write_bytes(code)
    try:
        done = subprocess.run([cov, "run", "--turns", "20000", "x"], cwd=folder, input=given, capture_output=True, timeout=10)
    except subprocess.TimeoutExpired:
        return "takes too long"
    line = done.stderr.decode(errors="replace")
    if done.returncode == 120 and line.startswith("cov: bad code "):
        return None
    if not line and 0 <= done.returncode <= 255:
        return "ran"
    for name, (status, form) in ENDS.items():
        if done.returncode == status and re.fullmatch(form, line):
            return name
    return f"status {done.returncode}, {line!r}"


def main():
    cov = os.path.abspath(sys.argv[1] if len(sys.argv) > 1 else TOP / "crates" / "cov" / "out" / "cov")
    runs = int(sys.argv[2]) if len(sys.argv) > 2 else 2000
    dice = random.Random(int(sys.argv[3]) if len(sys.argv) > 3 else 1)
    ends, refused = collections.Counter(), 0
    with tempfile.TemporaryDirectory() as made:
        folder = Path(made)
        codes = codes_of(cov, folder)
        while sum(ends.values()) < runs:
            code, inputs = dice.choice(codes)
            end = end_of(cov, folder, changed(code, dice), dice.choice(inputs))
            if end is None:
                refused += 1
            else:
                ends[end] += 1
    wrong = [end for end in ends if end != "ran" and end not in ENDS]
    print(", ".join(f"{number} {end}" for end, number in sorted(ends.items())) + f"; {refused} codes were refused")
    sys.exit(1 if wrong else 0)


if __name__ == "__main__":
    main()
