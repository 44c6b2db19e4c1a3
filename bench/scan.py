#!/usr/bin/env python3
"""Times the scanner on long texts, beside the time that gcc takes for the syntax of the same text.

Usage: bench/scan.py [FOLDER]   (default: a new temporary folder; with a FOLDER the scratch repository stays there)

Makes a scratch repository of c_tokens and a program that scans its standard input and prints how many tokens there are, or the fault,
and builds it with `rt run`, which proves it too. Each figure is the best of nine runs, less the time of a run on no text. The last
line says whether the bounds hold: 1,000,000 bytes of statements take below 1 second, and at most 2.6 times as long as half of them.
"""
import os
import sys
import tempfile

from scratch import best, gcc_syntax, program_in, statements

CRATES = ("cov_base", "int_ops", "c_tokens")
RUNS = 9
MOST = 1_048_576

MAIN_RT = """//! Scans its standard input.
#![tactic(auto)]

use c_tokens::scan;
use cov_base::{Refusal, SOURCE_LIMIT};
use std::io;

fn main(rt: HostRuntime) -> io::Result<()> {
    let text = io::read_to_string(rt.alloc(), rt.stdin())?;
    if text.len() > SOURCE_LIMIT {
        return println!(rt; "too long");
    }
    match scan(rt.alloc(), text.as_bytes()) {
        Ok(tokens) => println!(rt; "{} tokens", tokens.len()),
        Err(Refusal::Refused(fault)) => println!(rt; "{fault:?}"),
        Err(Refusal::NoMemory) => println!(rt; "no memory"),
    }
}
"""

def texts():
    return [
        ("statements, half", statements(500_000)),
        ("statements", statements(1_000_000)),
        ("one name", "a" * MOST),
        ("one number", "1" * MOST),
        ("blanks", " " * MOST),
        ("open parentheses", "(" * MOST),
        ("plus signs", "+" * MOST),
        ("an open comment", "/*" + "*" * (MOST - 2)),
        ("characters", "'\\x41' " * (MOST // 7)),
    ]


def main():
    keep = sys.argv[1] if len(sys.argv) > 1 else None
    with tempfile.TemporaryDirectory() as made:
        folder = os.path.abspath(keep or made)
        program = [program_in(folder, "scan_bench", CRATES, "cov_base c_tokens", {"src/main.rt": MAIN_RT})]
        empty, _ = best(program, "", RUNS)
        seconds = {}
        for name, text in texts():
            taken, wrote = best(program, text, RUNS)
            seconds[name] = taken - empty
            print(f"{name:>17}: {len(text):>9} bytes in {seconds[name]:.3f} s: {wrote}")
    taken = gcc_syntax(statements(1_000_000), RUNS)
    if taken is not None:
        print(f"gcc -fsyntax-only takes {taken:.3f} s for the statements")
    growth = seconds["statements"] / seconds["statements, half"]
    holds = seconds["statements"] < 1 and growth <= 2.6
    print(f"twice the statements take {growth:.2f} times as long; the bounds {'hold' if holds else 'do not hold'}")
    sys.exit(0 if holds else 1)


main()
