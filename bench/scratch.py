"""Scratch repositories of some of the crates and one program more, for the benchmarks."""
import os
import resource
import shutil
import subprocess
import sys
import time

TOP = os.path.dirname(os.path.dirname(os.path.abspath(__file__)))


def write(folder, name, text):
    path = os.path.join(folder, name)
    os.makedirs(os.path.dirname(path), exist_ok=True)
    with open(path, "w", encoding="utf-8") as file:
        file.write(text)


def program_in(folder, name, crates, uses, files, first_input=b""):
    """Copies the crates, adds a program of these files that uses some of them, builds it with `rt run`, and gives its path."""
    for crate in crates:
        shutil.copytree(os.path.join(TOP, "crates", crate), os.path.join(folder, "crates", crate),
                        ignore=shutil.ignore_patterns("must-fail", "out"), dirs_exist_ok=True)
    with open(os.path.join(TOP, "crates.txt"), encoding="utf-8") as file:
        lines = [line for line in file if line.split(":")[0] in crates]
    write(folder, "crates.txt", "".join(lines) + f"{name}: {uses}\n")
    home = os.path.join(folder, "crates", name)
    for path, text in files.items():
        write(home, path, text)
    done = subprocess.run(["rt", "run", "--jobs", "2"], cwd=home, input=first_input, capture_output=True)
    if done.returncode != 0:
        sys.stderr.buffer.write(done.stderr + done.stdout)
        sys.exit(f"the program {name} was not built")
    return os.path.join(home, "out", name)


def best(command, text, runs):
    """The seconds of the fastest of some runs, and what the last wrote."""
    fastest, wrote = None, b""
    for _ in range(runs):
        start = time.perf_counter()
        wrote = subprocess.run(command, input=text.encode(), capture_output=True).stdout
        taken = time.perf_counter() - start
        fastest = taken if fastest is None else min(fastest, taken)
    return fastest, wrote.decode().strip()


def memory(command, text):
    """The most memory of one run, in bytes."""
    child = subprocess.Popen(command, stdin=subprocess.PIPE, stdout=subprocess.DEVNULL)
    child.stdin.write(text.encode())
    child.stdin.close()
    _, _, used = os.wait4(child.pid, 0)
    return used.ru_maxrss * 1024


def gcc_syntax(text, runs):
    """The seconds that gcc takes for the syntax of a text, less those for none; None where there is no gcc."""
    if not shutil.which("gcc"):
        return None
    command = ["gcc", "-fsyntax-only", "-x", "c", "-"]
    return best(command, text, runs)[0] - best(command, "", runs)[0]


def stack_limit(size):
    """What a child does first to have so much stack, in bytes."""
    return lambda: resource.setrlimit(resource.RLIMIT_STACK, (size, size))


def least_stack(program, text, word):
    """The least stack, in KiB, on which the program ends well and writes the word."""
    low, high = 16, 65_536
    while high - low > 8:
        middle = (low + high) // 2
        done = subprocess.run(program, input=text.encode(), capture_output=True, preexec_fn=stack_limit(middle * 1024))
        if done.returncode == 0 and word in done.stdout:
            high = middle
        else:
            low = middle
    return high


# What a program does first that reads a tree from its standard input, and prints the fault where there is none.
TREE_RT = """    let text = io::read_to_string(rt.alloc(), rt.stdin())?;
    if text.len() > SOURCE_LIMIT {
        return println!(rt; "too long");
    }
    let tokens = match scan(rt.alloc(), text.as_bytes()) {
        Ok(tokens) => tokens,
        Err(Refusal::Refused(fault)) => return println!(rt; "{fault:?}"),
        Err(Refusal::NoMemory) => return println!(rt; "no memory"),
    };
    let tree = match parse(rt.alloc(), text.as_bytes(), &tokens) {
        Ok(tree) => tree,
        Err(Refusal::Refused(fault)) => return println!(rt; "{fault:?}"),
        Err(Refusal::NoMemory) => return println!(rt; "no memory"),
    };
"""


STATEMENTS = """int f%d(int n) {
  int total = 0;
  while (n > 0) {
    if (n %% 2 == 0)
      total += n * 3;
    else
      total = total - (n << 1); /* an odd one */
    n = n - 1;
  }
  return total;
}
"""


def statements(size):
    """Small functions, cut behind the last one that fits."""
    parts, length, k = [], 0, 0
    while True:
        part = STATEMENTS % k
        if length + len(part) > size:
            return "".join(parts)
        parts.append(part)
        length += len(part)
        k += 1
