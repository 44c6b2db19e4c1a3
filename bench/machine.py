#!/usr/bin/env python3
"""Times the machine of `cov run` beside a plain stack machine in Rust, and python3, on the same programs.

Usage: bench/machine.py [COV]   (default: the script cov at the top of the repository)

The programs are nested loops of 4 million turns, a sieve up to 1,000,000, fib(30), a filter of 1 MiB of bytes, and a switch in a loop.
cov builds each by `build --plain`; bench/plain_machine.rs, compiled by `rustc -O`, runs the same code file on 128-bit numbers; python3
runs the same program written in Python. Each figure is the best of five runs, the programs taking turns, less the time of an empty
program. The last line says whether the bounds hold: at most 0.65 times the plain machine on each, and below python3 on each.
"""
import subprocess
import sys
import tempfile
import time
from pathlib import Path

HERE = Path(__file__).resolve().parent
RUNS = 5
BOUND = 0.65

EMPTY = "int main(void) { return 0; }\n"

PROGRAMS = {
    "loops": ("""int main(void) {
  int n = 0;
  for (int i = 0; i < 2000; i++)
    for (int j = 0; j < 2000; j++)
      n = (n + i * j) & 65535;
  return n & 127;
}
""", """n = 0
for i in range(2000):
    for j in range(2000):
        n = (n + i * j) & 65535
raise SystemExit(n & 127)
"""),
    "sieve": ("""_Bool composite[1000001];
int main(void) {
  int found = 0;
  for (int n = 2; n <= 1000000; n++) {
    if (composite[n]) continue;
    found++;
    for (int k = n + n; k <= 1000000; k += n) composite[k] = 1;
  }
  return found & 127;
}
""", """composite = [False] * 1000001
found = 0
for n in range(2, 1000001):
    if composite[n]:
        continue
    found += 1
    k = n + n
    while k <= 1000000:
        composite[k] = True
        k += n
raise SystemExit(found & 127)
"""),
    "fib": ("""int fib(int n) { return n < 2 ? n : fib(n - 1) + fib(n - 2); }
int main(void) { return fib(30) & 127; }
""", """def fib(n):
    return n if n < 2 else fib(n - 1) + fib(n - 2)


raise SystemExit(fib(30) & 127)
"""),
    "filter": ("""int main(void) {
  int byte, before = 0;
  while ((byte = getchar()) != -1) {
    if (byte >= 'a' && byte <= 'z') putchar(byte - 32);
    else if (byte != before) putchar(byte);
    before = byte;
  }
  return 0;
}
""", """import sys
before = 0
out = bytearray()
for byte in sys.stdin.buffer.read():
    if 97 <= byte <= 122:
        out.append(byte - 32)
    elif byte != before:
        out.append(byte)
    before = byte
sys.stdout.buffer.write(out)
"""),
    "switch": ("""int main(void) {
  int state = 0, n = 0;
  for (int i = 0; i < 2000000; i++)
    switch (state) {
    case 0: n += 1; state = 3; break;
    case 1: n += 2; state = 4; break;
    case 2: n ^= 5; state = 1; break;
    case 3: n += 7; state = 2; break;
    default: n &= 65535; state = 0;
    }
  return n & 127;
}
""", """state = n = 0
for i in range(2000000):
    if state == 0:
        n += 1
        state = 3
    elif state == 1:
        n += 2
        state = 4
    elif state == 2:
        n ^= 5
        state = 1
    elif state == 3:
        n += 7
        state = 2
    else:
        n &= 65535
        state = 0
raise SystemExit(n & 127)
"""),
}


def ran(words, folder, data):
    """The seconds, the status and the output of a command."""
    start = time.perf_counter()
    done = subprocess.run(words, cwd=folder, input=data, stdout=subprocess.PIPE)
    return time.perf_counter() - start, (done.returncode, done.stdout)


def best(commands, folder, data):
    """The seconds of each command's fastest run; all have to end and write the same."""
    fastest = [float("inf")] * len(commands)
    for _ in range(RUNS):
        results = []
        for k, words in enumerate(commands):
            taken, result = ran(words, folder, data)
            fastest[k] = min(fastest[k], taken)
            results.append(result)
        if any(result != results[0] for result in results):
            sys.exit(f"{commands[0]} and the others differ")
    return fastest


def commands_of(cov, plain, folder, name, program, script):
    """Builds a program, and gives the three commands that run it."""
    (folder / f"{name}.c").write_text(program)
    (folder / f"{name}.py").write_text(script)
    subprocess.run([cov, "build", "--plain", f"{name}.c"], cwd=folder, check=True)
    return [[cov, "run", name], [plain, f"{name}.code"], [sys.executable, f"{name}.py"]]


def main():
    cov = str(Path(sys.argv[1] if len(sys.argv) > 1 else HERE.parent / "cov").resolve())
    kept = True
    with tempfile.TemporaryDirectory() as name:
        folder = Path(name)
        plain = str(folder / "plain_machine")
        subprocess.run(["rustc", "-O", "--edition", "2021", "-o", plain, str(HERE / "plain_machine.rs")], check=True)
        data = bytes((k * 7 + k // 97) % 96 + 32 for k in range(1 << 20))
        starts = best(commands_of(cov, plain, folder, "empty", EMPTY, ""), folder, b"")
        print(f"an empty program takes {starts[0] * 1000:.1f} ms of cov")
        for name, (program, script) in PROGRAMS.items():
            times = best(commands_of(cov, plain, folder, name, program, script), folder, data)
            own, other, python = (taken - start for taken, start in zip(times, starts))
            print(f"{name:7} cov {own:.3f} s, plain {other:.3f} s, python3 {python:.3f} s: {own / other:.2f} times the plain machine")
            kept = kept and own <= BOUND * other and own < python
    print(f"at most {BOUND} times the plain machine, and below python3: {'yes' if kept else 'no'}")


if __name__ == "__main__":
    main()
