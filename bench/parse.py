#!/usr/bin/env python3
"""Times the scanner and the parser on long and on deep texts, beside the time that gcc takes for the syntax of the same text.

Usage: bench/parse.py [FOLDER]   (default: a new temporary folder; with a FOLDER the scratch repository stays there)

Makes a scratch repository of c_parser, what it stands on, and a program that scans and parses its standard input and prints how many
parts the tree has, or the fault, and builds it with `rt run`, which proves it too. Each figure is the best of nine runs, less the time
of a run on no text; the memory is that of one run. Then it looks for the least stack on which the deepest accepted texts are read.
The last line says whether the bounds hold: 1,000,000 bytes of statements take below 1 second and 300 MB, and at most 2.6 times as
long as half of them.
"""
import os
import sys
import tempfile

from scratch import TREE_RT, best, gcc_syntax, least_stack, memory, program_in, statements

CRATES = ("cov_base", "int_ops", "c_tokens", "c_tree", "c_grammar", "c_syntax", "c_exprs", "c_parser")
USES = "cov_base c_tokens c_tree c_grammar c_exprs c_parser sqlite_items"
RUNS = 9
MOST = 1_048_576

MAIN_RT = """//! Scans and parses its standard input.
#![tactic(auto)]

use c_parser::parse;
use c_tokens::scan;
use cov_base::{Refusal, SOURCE_LIMIT};
use std::io;

fn main(rt: HostRuntime) -> io::Result<()> {
""" + TREE_RT + """    if text.len() <= 20000 {
        println!(rt; "{tree:?}")
    } else {
        println!(rt; "{} parts", tree.outers.len())
    }
}
"""


def inside(text):
    return f"int main(void) {{ {text} }}"


def texts():
    cases = "".join(f"case {k % 10}:" for k in range(100_000))
    functions = "".join(f"int f{k}(){{}}" for k in range(50_000))
    return [
        ("statements, half", statements(500_000)),
        ("statements", statements(1_000_000)),
        ("250 parentheses", inside("return " + "(" * 250 + "1" + ")" * 250 + ";")),
        ("250 ifs", inside("if (1) " * 250 + ";")),
        ("100,000 labels", inside(f"switch (1) {{ {cases} ; }}")),
        ("50,000 functions", functions),
        ("100,000 operators", "int x = " + "1+" * 100_000 + "1;"),
        ("100,000 commas", inside("1," * 100_000 + "1;")),
        ("initialisers", "int a[] = {" + "1," * 500_000 + "};"),
        ("open parentheses", "(" * MOST),
        ("open braces", inside("{" * 1_000_000)),
        ("minus signs", "int x = " + "- " * 500_000),
        ("else ifs", inside("if (1) ; else " * 70_000)),
        ("question marks", "int x = " + "1?" * 500_000),
        ("names", "a " * 500_000),
    ]


DEEPEST = {
    "parentheses": inside("return " + "(" * 254 + "1" + ")" * 254 + ";"),
    "calls": inside("return " + "f(" * 254 + "1" + ")" * 254 + ";"),
    "signs": inside("return " + "- " * 254 + "1;"),
    "choices": inside("return " + "1?1:" * 254 + "1;"),
    "assignments": inside("return " + "a=" * 254 + "1;"),
    "blocks": inside("{" * 255 + ";" + "}" * 255),
    "loops": inside("while(1)" * 254 + ";"),
    "ifs": inside("if(1);else " * 254 + ";"),
}


def main():
    keep = sys.argv[1] if len(sys.argv) > 1 else None
    with tempfile.TemporaryDirectory() as made:
        folder = os.path.abspath(keep or made)
        program = [program_in(folder, "parse_bench", CRATES, USES, {"src/main.rt": MAIN_RT})]
        empty, _ = best(program, "", RUNS)
        seconds, used = {}, {}
        for name, text in texts():
            taken, wrote = best(program, text, RUNS)
            seconds[name], used[name] = taken - empty, memory(program, text)
            print(f"{name:>17}: {len(text):>9} bytes in {seconds[name]:.3f} s and {used[name] / 1e6:.0f} MB: {wrote[:40]}")
        for name, text in DEEPEST.items():
            print(f"256 levels of {name} take {least_stack(program, text, b'Tree')} KiB of stack")
    taken = gcc_syntax(statements(1_000_000), RUNS)
    if taken is not None:
        print(f"gcc -fsyntax-only takes {taken:.3f} s for the statements")
    growth = seconds["statements"] / seconds["statements, half"]
    holds = seconds["statements"] < 1 and used["statements"] < 300e6 and growth <= 2.6
    print(f"twice the statements take {growth:.2f} times as long; the bounds {'hold' if holds else 'do not hold'}")
    sys.exit(0 if holds else 1)


main()
