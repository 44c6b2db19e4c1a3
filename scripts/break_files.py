#!/usr/bin/env python3
"""Breaks the files of a small program in every place, and looks at what the commands that load them answer.

Usage: scripts/break_files.py [COV]   (default: the script cov at the top of the repository)

The program is examples/echo.c, built and run once. Its notes, data and code are cut at every length, get a byte more, have each byte changed
to each of 16 values, are random bytes, and are those of another program. `report` loads the notes, `report`, `merge` and `run` the data,
`run` the code. A cut has to be told as short at its length, but for notes that end behind a record of the last function, which are whole or
have a fault of a net; a byte more is told as extra. Every answer is one of those for such files, by name and place, or the command goes on; no command crashes or takes above
five seconds, and where it refuses, all files stand. The last lines say for each file and command how many were tried, how many were refused,
and how many changed bytes weren't noticed, since a format has no way to tell. Status 1: an answer is none of these.
"""
import random
import re
import shutil
import subprocess
import sys
import tempfile
from pathlib import Path

TOP = Path(__file__).resolve().parent.parent
VALUES = (0, 1, 2, 3, 7, 8, 16, 31, 32, 64, 65, 127, 128, 161, 254, 255)
RANDOM = 500
ANSWER = {
    "notes": r"bad notes [a-z ]+ at byte \d+|source changed \d+ \d+|other build \d+ \d+|other shape of function \d+|no flow in function \d+ at arc \d+",
    "data": r"bad data [a-z ]+ at byte \d+|other build \d+ \d+|other shape of function \d+|no flow in function \d+ at arc \d+|runs passed|count passed in function \d+ at counter \d+",
    "code": r"bad code [a-z ]+ at byte \d+|other build \d+ \d+|other shape of function \d+|trapped [a-z ]+ at line \d+|out of turns after \d+|count passed in function \d+ at counter \d+",
}
ENDS = {"notes": ".gcno", "data": ".gcda", "code": ".code"}
OTHER = "int f(int n) { return n ? f(n - 1) + 1 : 0; }\nint main(void) { return f(3); }\n"


class Trial:
    """One command over one kind of file, in a folder with the program's sound files."""

    def __init__(self, cov, folder, kind, words):
        self.cov, self.folder, self.kind, self.words = cov, folder, kind, words
        self.file = folder / f"echo{ENDS[kind]}"
        self.sound = {it: it.read_bytes() for it in folder.iterdir()}
        self.tried, self.refused, self.silent, self.wrong = 0, 0, 0, []

    def answer(self, data):
        """Runs the command with these bytes in place of the file, and puts all files back: status, line, and whether files stood."""
        self.file.write_bytes(data)
        before = {it: it.read_bytes() for it in self.folder.iterdir()}
        try:
            done = subprocess.run([self.cov, *self.words], cwd=self.folder, input=b"aa", capture_output=True, timeout=5)
            status, line = done.returncode, done.stderr.decode(errors="replace").strip()
        except subprocess.TimeoutExpired:
            status, line = None, "takes too long"
        stood = {it: it.read_bytes() for it in self.folder.iterdir()} == before
        for it in list(self.folder.iterdir()):
            if it not in self.sound:
                it.unlink()
        for it, sound in self.sound.items():
            it.write_bytes(sound)
        return status, line, stood

    def put(self, what, data, wanted=(), changed=False):
        """Tries these bytes; wanted is what the whole line may be, if that is known."""
        status, line, stood = self.answer(data)
        self.tried += 1
        refuses = bool(re.fullmatch(f"cov: (?:{ANSWER[self.kind]})", line)) and status in (120, 121, 122)
        goes_on = line == "" and status is not None and 0 <= status and status not in (120, 121, 122, 123)
        self.refused += refuses
        self.silent += goes_on and changed
        if not (refuses or goes_on) or refuses and not stood or wanted and line not in wanted:
            self.wrong.append(f"{self.kind} by {self.words[0]}, {what}: status {status}, {line or 'no line'}{'' if stood else ', files changed'}")


def ends_of_records(notes):
    """What may be told where the records of notes with one function end, from the record of blocks on; the first begins behind 20 bytes."""
    at, places = 20, []
    while at < len(notes):
        at += 8 + int.from_bytes(notes[at + 4:at + 8], "little")
        places.append(at)
    return {place: ("", "cov: bad notes net at byte 20") for place in places[1:]}


def try_all(trial, other):
    sound = trial.sound[trial.file]
    ends = ends_of_records(sound) if trial.kind == "notes" else {}
    for n in range(len(sound)):
        trial.put(f"cut at {n}", sound[:n], (f"cov: bad {trial.kind} short at byte {n}", *ends.get(n, ())))
    trial.put("a byte more", sound + b"\x07", () if trial.kind == "notes" else (f"cov: bad {trial.kind} extra at byte {len(sound)}",))
    for at in range(len(sound)):
        for value in VALUES:
            if sound[at] != value:
                trial.put(f"byte {at} is {value}", sound[:at] + bytes([value]) + sound[at + 1:], changed=True)
    chance = random.Random(7)
    for k in range(RANDOM):
        trial.put(f"random bytes {k}", chance.randbytes(chance.randrange(300)))
    trial.put("another program's", other)


def main():
    cov = str(Path(sys.argv[1]).resolve()) if len(sys.argv) > 1 else str(TOP / "cov")
    wrong = []
    with tempfile.TemporaryDirectory() as top:
        others = Path(top) / "others"
        others.mkdir()
        (others / "echo.c").write_text(OTHER)
        subprocess.run([cov, "build", "echo.c"], cwd=others, check=True)
        subprocess.run([cov, "run", "echo"], cwd=others, stdin=subprocess.DEVNULL, capture_output=True)
        trials = [("notes", ["report", "echo"]), ("data", ["report", "echo"]), ("data", ["merge", "echo", "echo", "both"]),
                  ("data", ["run", "echo"]), ("code", ["run", "--turns", "1000", "echo"])]
        for number, (kind, words) in enumerate(trials):
            folder = Path(top) / str(number)
            folder.mkdir()
            shutil.copy(TOP / "examples" / "echo.c", folder)
            subprocess.run([cov, "build", "echo.c"], cwd=folder, check=True)
            subprocess.run([cov, "run", "echo"], cwd=folder, input=b"aa", capture_output=True)
            trial = Trial(cov, folder, kind, words)
            try_all(trial, (others / f"echo{ENDS[kind]}").read_bytes())
            print(f"{kind} by {words[0]}: {trial.tried} tried, {trial.refused} refused, {trial.silent} changed bytes not noticed")
            wrong += trial.wrong
    for line in wrong[:40]:
        print(line)
    print(f"{len(wrong)} answers are none of those for such files")
    return 1 if wrong else 0


if __name__ == "__main__":
    sys.exit(main())
