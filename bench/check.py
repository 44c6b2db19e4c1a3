#!/usr/bin/env python3
"""Times the way from bytes to the typed tree, beside the time that gcc takes for the syntax and types of the same text.

Usage: bench/check.py [FOLDER]   (default: a new temporary folder; with a FOLDER the scratch repository stays there)

Makes a scratch repository of c_types, what it stands on and the parser, and a program that scans, parses and checks its standard input
and prints how many functions the source has, or the fault, and builds it with `rt run`, which proves it too. Each figure is the best of
nine runs, less the time of a run on the least source; the memory is that of one run. A source of 1,048,576 bytes has no room for a
switch of 100,000 cases; here are as many as fit. Two texts have 60,000 names of 8 letters: some names, and names that a hostile writer
chose so that the table keeps them all in one place (by bench/hostile_names.c, which gcc builds). The last line says whether the bounds hold: 1,000,000 bytes of statements take below
1.5 times what gcc takes in the same run and below 150 MB, and at most 2.67 times as long as half of them.
"""
import itertools
import os
import shutil
import subprocess
import sys
import tempfile

from scratch import TOP, TREE_RT, best, gcc_syntax, memory, program_in, statements

CRATES = ("cov_base", "int_ops", "c_tokens", "c_tree", "c_grammar", "c_syntax", "c_exprs", "c_parser", "c_typing", "c_values", "c_types")
USES = " ".join(CRATES) + " sqlite_items indexmap"
RUNS = 9
LEAST = "int main(void){}"

MAIN_RT = """//! Scans, parses and checks its standard input.
#![tactic(auto)]

use c_parser::parse;
use c_tokens::scan;
use c_types::check;
use cov_base::{Refusal, SOURCE_LIMIT};
use std::io;

fn main(rt: HostRuntime) -> io::Result<()> {
""" + TREE_RT + """    match check(rt.alloc(), &tree) {
        Ok(typed) => println!(rt; "{} functions", typed.functions.len()),
        Err(Refusal::Refused(fault)) => println!(rt; "{fault:?}"),
        Err(Refusal::NoMemory) => println!(rt; "no memory"),
    }
}
"""


def inside(text):
    return f"int main(void) {{ {text} }}"


KEYWORDS = {"continue", "register", "unsigned", "volatile", "restrict"}


def some_names(count):
    """Names of eight letters, in order."""
    names = ("".join(chr(ord("a") + k // 26**j % 26) for j in range(7, -1, -1)) for k in itertools.count())
    return list(itertools.islice((name for name in names if name not in KEYWORDS), count))


def hostile_names(folder, count):
    """Names whose hashes agree in all bits that choose their places in the table."""
    program = os.path.join(folder, "hostile_names")
    subprocess.run(["gcc", "-O2", "-o", program, os.path.join(TOP, "bench", "hostile_names.c")], check=True)
    wrote = subprocess.run([program, str(count), "13"], capture_output=True, check=True).stdout.decode()
    return [name for name in wrote.split() if name not in KEYWORDS]


def texts(folder):
    functions = "".join(f"int f{k}(int n){{return n+{k};}}" for k in range(20_000))
    globals_ = "".join(f"int g{k}={k};" for k in range(20_000))
    nested = inside("int x; " + "{int y;" * 250 + "x;" * 50_000 + "}" * 250)
    cases = "".join(f"case {k}:" for k in range(95_000))
    arrays = "".join(f"int a{k}[1048576];" for k in range(45_000))
    return [
        ("statements, half", statements(500_000) + LEAST),
        ("statements", statements(1_000_000) + LEAST),
        ("20,000 functions", functions + inside("".join(f"f{k}(1);" for k in range(0, 20_000, 2)))),
        ("20,000 globals", globals_ + inside("".join(f"g{k}++;" for k in range(20_000)))),
        ("100,000 statements", inside("int x; " + "x=x+1;" * 100_000)),
        ("50,000 look-ups", nested),
        ("95,000 cases", inside(f"switch (1) {{ {cases} ; }}")),
        ("500,000 elements", "int a[] = {" + "1," * 500_000 + "};" + LEAST),
        ("100,000 operators", "int x = " + "1+" * 100_000 + "1;" + LEAST),
        ("45,000 arrays", arrays + LEAST),
        ("last name unknown", inside("int x; " + "x=x+1;" * 150_000 + "y;")),
        ("60,000 names", "int " + ",".join(some_names(60_000)) + ";" + LEAST),
    ] + ([("names in one place", "int " + ",".join(hostile_names(folder, 60_000)) + ";" + LEAST)] if shutil.which("gcc") else [])


def main():
    keep = sys.argv[1] if len(sys.argv) > 1 else None
    seconds, gcc, used = {}, {}, {}
    with tempfile.TemporaryDirectory() as made:
        folder = os.path.abspath(keep or made)
        program = [program_in(folder, "check_bench", CRATES, USES, {"src/main.rt": MAIN_RT}, LEAST.encode())]
        least, _ = best(program, LEAST, RUNS)
        for name, text in texts(folder):
            taken, wrote = best(program, text, RUNS)
            seconds[name], used[name] = taken - least, memory(program, text)
            gcc[name] = gcc_syntax(text, RUNS if name == "statements" else 2)
            beside = "" if gcc[name] is None else f", gcc in {gcc[name]:.3f} s"
            print(f"{name:>18}: {len(text):>9} bytes in {seconds[name]:.3f} s and {used[name] / 1e6:.0f} MB{beside}: {wrote[:40]}")
    growth = seconds["statements"] / seconds["statements, half"]
    is_fast = gcc["statements"] is None or seconds["statements"] < 1.5 * gcc["statements"]
    holds = is_fast and used["statements"] < 150e6 and growth <= 2.67
    print(f"twice the statements take {growth:.2f} times as long; the bounds {'hold' if holds else 'do not hold'}")
    sys.exit(0 if holds else 1)


main()
