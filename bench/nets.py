#!/usr/bin/env python3
"""Times the spanning tree with its counters, and pruning.

Usage: bench/nets.py [FOLDER]   (default: a new temporary folder; with a FOLDER the scratch repository stays there)

Makes a scratch repository of the crates and two programs, and builds them with `rt run`, which proves them too. The first makes the
tree and the counters of a net of 512 blocks and 4,096 arcs, as often as its input says. The second prunes a unit of so many
functions, as often as its input says: each has the blocks of one of the functions of `statements`, and one more that nothing enters.
Each figure is the best of nine runs, less the best of a run of no rounds, over the rounds. The last line says whether the bounds
hold: the tree and the counters take below 1 millisecond; pruning the functions of 1,000,000 bytes takes below 0.3 seconds, and at
most 2.6 times as long as half of them.
"""
import os
import sys
import tempfile

from scratch import best, program_in, statements

RUNS = 9
TREE_ROUNDS = 2000
PRUNE_ROUNDS = 10
TREE_BOUND = 0.001
PRUNE_BOUND = 0.3
TREE_CRATES = ("cov_base", "span_tree", "arc_counters")
PRUNE_CRATES = ("cov_base", "int_ops", "c_tree", "stack_ops", "flow_graph", "fake_arcs")

TREE_RT = """//! Makes the tree and the counters of a great net, as often as its input says.
#![tactic(auto)]

use arc_counters::number;
use cov_base::{ArcKind, FlowArc, Net, NoMemory, Refusal};
use span_tree::tree_of;
use std::alloc::{AllocError, Global};
use std::io;

fn put(arcs: &mut Vec<FlowArc>, from: u32, to: u32) -> Result<(), AllocError> {
    let kind = ArcKind::Real;
    arcs.push(FlowArc { from, to, kind })?;
    Ok(())
}

/// The arcs out of a block: to the exit, back to the first blocks, and on to the next.
fn put_arcs(arcs: &mut Vec<FlowArc>, block: u32) -> Result<(), AllocError> {
    put(arcs, block, 1)?;
    for target in 3..9 {
        put(arcs, block, target)?;
    }
    if block > 8 && block < 31 {
        put(arcs, block, 9)?;
    }
    if block > 7 && block < 511 {
        put(arcs, block, block + 1)?;
    }
    Ok(())
}

fn great_arcs(alloc: Global) -> Result<Vec<FlowArc>, AllocError> {
    let mut arcs = Vec::new(alloc);
    put(&mut arcs, 0, 2)?;
    for block in 2..512u32 {
        put_arcs(&mut arcs, block)?;
    }
    Ok(arcs)
}

fn great(alloc: Global) -> Result<Option<Net>, AllocError> {
    let arcs = great_arcs(alloc)?;
    let mut lines = Vec::new(alloc);
    for _ in 0..512u32 {
        lines.push(Vec::new(alloc))?;
    }
    if arcs.len() > 4096 || lines.len() > 512 {
        return Ok(None);
    }
    match Net::new(alloc, 512, arcs, lines) {
        Ok(net) => Ok(Some(net)),
        Err(Refusal::NoMemory) => Err(AllocError),
        Err(Refusal::Refused(_)) => Ok(None),
    }
}

fn count_counters(alloc: Global, net: &Net, rounds: u32) -> Result<u32, NoMemory> {
    let mut counters = 0;
    for _ in 0..rounds {
        let tree = tree_of(alloc, net)?;
        counters = number(alloc, net, &tree)?.count();
    }
    Ok(counters)
}

fn main(rt: HostRuntime) -> io::Result<()> {
    let text = io::read_to_string(rt.alloc(), rt.stdin())?;
    let rounds = text.trim().parse::<u32>().unwrap_or(0);
    let Some(net) = great(rt.alloc())? else {
        return println!(rt; "no net");
    };
    let arcs = net.arcs().len();
    match count_counters(rt.alloc(), &net, rounds) {
        Ok(counters) => println!(rt; "{arcs} arcs, {counters} counters"),
        Err(NoMemory) => println!(rt; "no memory"),
    }
}
"""

PRUNE_RT = """//! Prunes a unit of so many functions, as often as its input says.
#![tactic(auto)]

use c_tree::Ident;
use cov_base::Refusal;
use fake_arcs::prune;
use flow_graph::{Block, Ending, Graph, GraphUnit};
use stack_ops::Op;
use std::alloc::{AllocError, Global};
use std::io;

fn block(alloc: Global, ops: u32, end: Ending, line: u32) -> Result<Block, AllocError> {
    let mut block = Block {
        ops: Vec::new(alloc),
        end,
        lines: Vec::new(alloc),
    };
    for _ in 0..ops {
        block.ops.push(Op::Dup)?;
    }
    block.lines.push(line)?;
    Ok(block)
}

fn blocks(alloc: Global) -> Result<Vec<Block>, AllocError> {
    let mut blocks = Vec::new(alloc);
    blocks.push(block(alloc, 3, Ending::Jump(3), 1)?)?;
    blocks.push(block(alloc, 3, Ending::Branch(4, 8), 3)?)?;
    blocks.push(block(alloc, 5, Ending::Branch(5, 6), 4)?)?;
    blocks.push(block(alloc, 7, Ending::Jump(7), 5)?)?;
    blocks.push(block(alloc, 7, Ending::Jump(7), 7)?)?;
    blocks.push(block(alloc, 5, Ending::Back(3), 8)?)?;
    blocks.push(block(alloc, 1, Ending::Return, 10)?)?;
    blocks.push(block(alloc, 1, Ending::Return, 11)?)?;
    Ok(blocks)
}

fn unit_of(alloc: Global, functions: u32) -> Result<GraphUnit, AllocError> {
    let mut unit = GraphUnit {
        globals: Vec::new(alloc),
        main: 0,
        graphs: Vec::new(alloc),
    };
    for line in 0..functions {
        unit.graphs.push(Graph {
            name: Ident::of(alloc, b"main")?,
            line,
            params: 1,
            cells: 2,
            gives: true,
            blocks: blocks(alloc)?,
        })?;
    }
    Ok(unit)
}

fn main(rt: HostRuntime) -> io::Result<()> {
    let text = io::read_to_string(rt.alloc(), rt.stdin())?;
    let mut words = text.split_whitespace();
    let functions = words.next().and_then(|word| word.parse::<u32>().ok()).unwrap_or(0);
    let rounds = words.next().and_then(|word| word.parse::<u32>().ok()).unwrap_or(0);
    let unit = unit_of(rt.alloc(), functions)?;
    if unit.graphs.len() > 1_000_000 {
        return println!(rt; "too many");
    }
    let mut kept = 0;
    for _ in 0..rounds {
        match prune(rt.alloc(), &unit) {
            Ok(pruned) => kept = pruned.graphs.len(),
            Err(Refusal::Refused(fault)) => return println!(rt; "{fault:?}"),
            Err(Refusal::NoMemory) => return println!(rt; "no memory"),
        }
    }
    println!(rt; "{kept} functions")
}
"""


def seconds(program, text, none, rounds):
    """The seconds of one round, and what the program wrote."""
    empty, _ = best(program, none, RUNS)
    taken, wrote = best(program, text, RUNS)
    return (taken - empty) / rounds, wrote


def functions_in(size):
    return statements(size).count("return total")


def main():
    keep = sys.argv[1] if len(sys.argv) > 1 else None
    with tempfile.TemporaryDirectory() as made:
        folder = os.path.abspath(keep or made)
        tree = [program_in(os.path.join(folder, "tree"), "tree_bench", TREE_CRATES, "cov_base span_tree arc_counters",
                           {"src/main.rt": TREE_RT})]
        pruning = [program_in(os.path.join(folder, "pruning"), "prune_bench", PRUNE_CRATES,
                              "cov_base c_tree stack_ops flow_graph fake_arcs", {"src/main.rt": PRUNE_RT})]
        tree_taken, wrote = seconds(tree, str(TREE_ROUNDS), "0", TREE_ROUNDS)
        print(f"tree and counters of 512 blocks: {tree_taken * 1e6:.0f} microseconds: {wrote}")
        taken = {}
        for size in (500_000, 1_000_000):
            count = functions_in(size)
            taken[size], wrote = seconds(pruning, f"{count} {PRUNE_ROUNDS}", f"{count} 0", PRUNE_ROUNDS)
            print(f"pruning of {size} bytes of functions: {taken[size]:.4f} s: {wrote}")
    growth = taken[1_000_000] / taken[500_000]
    holds = tree_taken < TREE_BOUND and taken[1_000_000] < PRUNE_BOUND and growth <= 2.6
    print(f"twice the functions take {growth:.2f} times as long; the bounds {'hold' if holds else 'do not hold'}")
    sys.exit(0 if holds else 1)


main()
