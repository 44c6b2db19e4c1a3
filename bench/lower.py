#!/usr/bin/env python3
"""Times the way from bytes to graphs, beside the time that gcc takes for the syntax of the same text and for an object of it.

Usage: bench/lower.py [FOLDER]   (default: a new temporary folder; with a FOLDER the scratch repository stays there)

Makes a scratch repository of c_lower, what it stands on, the parser and the checker, and a program that scans, parses, checks and lowers
its standard input and prints how many blocks and operations the graphs have, or the fault, and builds it with `rt run`, which proves it
too. A source that begins with `//each` is lowered function by function, and each graph is dropped before the next. Each figure is the
best of five runs, less the time of a run on the least source; the memory is that of one run. Then the program looks for the least stack
on which the deepest accepted texts are lowered. The last line says whether the bounds hold: each text of about 1,000,000 bytes takes
below 1 second and 300 MiB, twice the statements take at most 2.67 times as long as half of them, and the hostile text takes below 2 GiB.
"""
import os
import shutil
import sys
import tempfile

from scratch import TREE_RT, best, gcc_syntax, least_stack, memory, program_in

CRATES = ("cov_base", "int_ops", "c_tokens", "c_tree", "c_grammar", "c_syntax", "c_exprs", "c_parser", "c_typing", "c_values", "c_types", "stack_ops",
          "c_meaning", "flow_graph", "c_lower")
USES = " ".join(CRATES) + " sqlite_items indexmap"
RUNS = 5
MIB = 1 << 20
LEAST = "int main(void){}"

MAIN_RT = """//! Scans, parses, checks and lowers its standard input.
#![tactic(auto)]

use c_lower::{lower, lower_function};
use c_parser::parse;
use c_tokens::scan;
use c_tree::Typed;
use c_types::check;
use cov_base::{Refusal, SOURCE_LIMIT};
use flow_graph::Graph;
use std::alloc::Global;
use std::io;

/// How many blocks and operations a graph has.
fn sizes(graph: &Graph) -> (u64, u64) {
    let mut ops = 0u64;
    for block in &graph.blocks {
        ops = ops.saturating_add(block.ops.len() as u64);
    }
    (graph.blocks.len() as u64, ops)
}

/// The sizes of all graphs together, or none for a fault of size or want of memory.
fn lower_each(alloc: Global, typed: &Typed) -> Option<(u64, u64)> {
    let mut sum = (0u64, 0u64);
    let mut number = 0u32;
    for f in typed.functions.as_slice() {
        let Ok(graph) = lower_function(alloc, number, f) else {
            return None;
        };
        let (blocks, ops) = sizes(&graph);
        sum = (sum.0.saturating_add(blocks), sum.1.saturating_add(ops));
        number = number.saturating_add(1);
    }
    Some(sum)
}

fn lower_all(alloc: Global, typed: &Typed) -> Option<(u64, u64)> {
    let Ok(unit) = lower(alloc, typed) else {
        return None;
    };
    let mut sum = (0u64, 0u64);
    for graph in &unit.graphs {
        let (blocks, ops) = sizes(graph);
        sum = (sum.0.saturating_add(blocks), sum.1.saturating_add(ops));
    }
    Some(sum)
}

fn main(rt: HostRuntime) -> io::Result<()> {
""" + TREE_RT + """    let typed = match check(rt.alloc(), &tree) {
        Ok(typed) => typed,
        Err(Refusal::Refused(fault)) => return println!(rt; "{fault:?}"),
        Err(Refusal::NoMemory) => return println!(rt; "no memory"),
    };
    let sizes = if text.as_str().starts_with("//each") {
        lower_each(rt.alloc(), &typed)
    } else {
        lower_all(rt.alloc(), &typed)
    };
    match sizes {
        Some((blocks, ops)) => println!(rt; "{blocks} blocks, {ops} operations"),
        None => println!(rt; "too large or no memory"),
    }
}
"""

LOOP = "while (n > 0) {\nif (n % 2 == 0)\ntotal += n * 3;\nelse\ntotal = total - (n << 1);\nn = n - 1;\n}\n"


def inside(text):
    return f"int f(int n) {{ return n; }}\nint main(void) {{ int n = 9, total = 0; {text} }}"


def loops(size):
    return inside(LOOP * (size // len(LOOP)))


def functions(size):
    made = [f"int f{k}(int n) {{ if (n) n = n * 3; return n; }}\n" for k in range(size // 47)]
    return "".join(made)[:size].rsplit("\n", 1)[0] + "\n" + LEAST


def texts():
    cases = "".join(f"case {k}:" for k in range(90_000))
    return [
        ("loops, half", loops(500_000)), ("loops", loops(1_000_000)),
        ("functions, half", functions(500_000)), ("20,000 functions", functions(1_000_000)),
        ("50,000 ifs", inside("if(n)n++;" * 50_000)), ("100,000 ifs", inside("if(n)n++;" * 100_000)),
        ("90,000 cases", inside(f"switch (n) {{ {cases} ; }}")),
        ("60,000 groups", inside("switch (n) {" + "".join(f"case {k}:n++;" for k in range(60_000)) + "}")),
        ("250 loops", inside("while(n)" * 250 + ";")),
        ("20,000 calls", inside("f(n);" * 20_000)),
        ("40,000 choices", inside("n=n&&n?n:1;" * 40_000)),
        ("hostile", "//each\n" + "".join(f"void a{k}(){{int b[4096]={{1}};}}" for k in range(30_000)) + LEAST),
    ]


DEEPEST = {
    "signs": inside("return " + "- " * 254 + "1;"),
    "calls": inside("return " + "f(" * 254 + "1" + ")" * 254 + ";"),
    "choices": inside("return " + "1?1:" * 254 + "1;"),
    "sums": inside("return 1" + "+1" * 254 + ";"),
    "assignments": inside("return " + "n=" * 254 + "1;"),
    "conditions": inside("if (" + "!" * 253 + "n) ;"),
    "blocks": inside("{" * 255 + ";" + "}" * 255),
    "loops": inside("while(1)" * 254 + ";"),
    "ifs": inside("if(1);else " * 254 + ";"),
    "switches": inside("switch(1){default:" * 254 + ";" + "}" * 254),
}


def gcc_object(text):
    """The seconds that gcc takes for an object of a text, less those for the least; none where there is no gcc."""
    if not shutil.which("gcc"):
        return None
    command = ["gcc", "-O0", "-w", "-c", "-x", "c", "-", "-o", os.devnull]
    return best(command, text, 1)[0] - best(command, LEAST, 2)[0]


def main():
    keep = sys.argv[1] if len(sys.argv) > 1 else None
    seconds, used = {}, {}
    with tempfile.TemporaryDirectory() as made:
        folder = os.path.abspath(keep or made)
        program = [program_in(folder, "lower_bench", CRATES, USES, {"src/main.rt": MAIN_RT}, LEAST.encode())]
        least, _ = best(program, LEAST, RUNS)
        for name, text in texts():
            taken, wrote = best(program, text, RUNS if name != "hostile" else 1)
            seconds[name], used[name] = taken - least, memory(program, text)
            syntax, whole = (None, None) if name == "hostile" else (gcc_syntax(text, 2), gcc_object(text))
            beside = "" if syntax is None else f", gcc's syntax in {syntax:.3f} s, its object in {whole:.3f} s"
            print(f"{name:>16}: {len(text):>9} bytes in {seconds[name]:.3f} s and {used[name] / MIB:.0f} MiB{beside}: {wrote[:50]}")
        for name, text in DEEPEST.items():
            print(f"256 levels of {name} take {least_stack(program, text, b'blocks')} KiB of stack")
    growth = max(seconds[all_] / seconds[half] for half, all_ in
                 (("loops, half", "loops"), ("functions, half", "20,000 functions"), ("50,000 ifs", "100,000 ifs")))
    others = [name for name in seconds if name != "hostile"]
    fits = all(seconds[name] < 1 and used[name] < 300 * MIB for name in others) and used["hostile"] < 2048 * MIB
    holds = fits and growth <= 2.67
    print(f"twice a text takes at most {growth:.2f} times as long; the bounds {'hold' if holds else 'do not hold'}")
    sys.exit(0 if holds else 1)


main()
