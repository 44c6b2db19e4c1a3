#!/usr/bin/env python3
"""Times the listing of prime paths against a plain enumeration in C++.

Usage: bench/primes.py [FOLDER]   (default: a new temporary folder; with a FOLDER the scratch repository stays there)

Makes a scratch repository of the crates and a program, and builds it with `rt run`, which proves it too; builds the C++ beside it with
`g++ -O2`. Both list the prime paths of the same nets at limits of 10,000 and 65,536: a chain, a ladder of `if`s, nested loops, a complete
graph of 8 blocks, a switch of 200 cases in a loop. Each figure is the best of five runs, less the best of a run of no rounds, over the
rounds. The last line says whether the bounds hold: the listing takes at most 3 times as long as the C++, and a net of 20 `if`s in a row is
given up within a second.
"""
import os
import subprocess
import sys
import tempfile

from scratch import best, program_in, write

RUNS = 5
RATIO = 3.0
GIVEN_UP = 1.0
CRATES = ("cov_base", "word_rules", "prime_paths", "path_masks", "path_rows")
USES = "cov_base prime_paths path_rows"

MAIN_RT = """//! Lists the prime paths of the net in each line of its input, as often as the line says.
#![tactic(auto)]

ghost use Rattle.std.specs.Prelude.{◌≤◌};

use cov_base::{ArcKind, FlowArc, Net, NoMemory, Refusal};
use path_rows::list_uncounted;
use prime_paths::{Listing, Paths};
use std::alloc::{AllocError, Global};
use std::io;

fn numbers_of(alloc: Global, line: &str) -> Result<Vec<u32>, AllocError> {
    let mut numbers = Vec::new(alloc);
    for word in line.split_whitespace() {
        numbers.push(word.parse::<u32>().unwrap_or(0))?;
    }
    Ok(numbers)
}

fn net_of(alloc: Global, blocks: u32, ends: &[u32]) -> Result<Option<Net>, AllocError> {
    let mut arcs = Vec::new(alloc);
    let mut from = None;
    for end in ends {
        match from {
            None => from = Some(*end),
            Some(from_block) => {
                arcs.push(FlowArc {
                    from: from_block,
                    to: *end,
                    kind: ArcKind::Real,
                })?;
                from = None;
            }
        }
    }
    let mut lines = Vec::new(alloc);
    for _ in 0..blocks {
        lines.push(Vec::new(alloc))?;
    }
    if arcs.len() > 4096 || lines.len() > 512 {
        return Ok(None);
    }
    match Net::new(alloc, blocks, arcs, lines) {
        Ok(net) => Ok(Some(net)),
        Err(Refusal::NoMemory) => Err(AllocError),
        Err(Refusal::Refused(_)) => Ok(None),
    }
}

fn put_paths(alloc: Global, paths: &Paths, text: &mut String) -> Result<(), AllocError> {
    for k in 0..paths.len() {
        text.push(';')?;
        for block in paths.path(k) {
            text.push(' ')?;
            let number = block.to_string(alloc)?;
            text.push_str(number.as_str())?;
        }
    }
    Ok(())
}

fn put_listing(
    alloc: Global,
    net: &Net,
    limit: u32,
    rounds: u32,
    show: bool,
    text: &mut String,
) -> Result<(), NoMemory>
    requires { limit ≤ 65536 }
{
    for round in 0..rounds {
        let listing = list_uncounted(alloc, net, limit)?;
        if round == 0 {
            match listing {
                Listing::All(paths) => {
                    let number = paths.len().to_string(alloc)?;
                    text.push_str(number.as_str())?;
                    if show {
                        put_paths(alloc, &paths, text)?;
                    }
                }
                Listing::LimitPassed => text.push_str("more")?,
            }
        }
    }
    Ok(())
}

fn put_answer(alloc: Global, numbers: &[u32], text: &mut String) -> Result<(), NoMemory> {
    let [blocks, limit, rounds, show, ends @ ..] = numbers else {
        text.push_str("no line")?;
        return Ok(());
    };
    match net_of(alloc, *blocks, ends)? {
        Some(net) => put_listing(alloc, &net, (*limit).min(65536), *rounds, *show == 1, text)?,
        None => text.push_str("no net")?,
    }
    Ok(())
}

fn answers(alloc: Global, input: &str) -> Result<String, NoMemory> {
    let mut text = String::new(alloc);
    for line in input.lines() {
        let numbers = numbers_of(alloc, line)?;
        put_answer(alloc, &numbers, &mut text)?;
        text.push('\\n')?;
    }
    Ok(text)
}

fn main(rt: HostRuntime) -> io::Result<()> {
    let input = io::read_to_string(rt.alloc(), rt.stdin())?;
    match answers(rt.alloc(), input.as_str()) {
        Ok(text) => print!(rt; "{text}"),
        Err(NoMemory) => println!(rt; "no memory"),
    }
}
"""

PLAIN_CPP = """// Lists the prime paths of the net in each line of its input, as often as the line says.
#include <cstdint>
#include <cstdio>
#include <iostream>
#include <sstream>
#include <string>
#include <vector>

struct Lister {
  std::vector<std::vector<uint32_t>> next, prior;
  std::vector<bool> on;
  std::vector<uint32_t> path, store, ends;
  uint32_t limit;
  uint64_t left;

  Lister(uint32_t blocks, uint32_t limit, const std::vector<uint32_t>& arcs)
      : next(blocks), prior(blocks), on(blocks), limit(limit), left(uint64_t(limit) * (blocks + 1) * (blocks + 2) / 2) {
    for (size_t i = 0; i + 1 < arcs.size(); i += 2) {
      uint32_t from = arcs[i], to = arcs[i + 1];
      if (from >= 2 && to >= 2) {
        next[from].push_back(to);
        prior[to].push_back(from);
      }
    }
  }

  bool open(const std::vector<uint32_t>& row, uint32_t end) const {
    for (uint32_t block : row)
      if (block == end || !on[block]) return true;
    return false;
  }

  bool add() {
    if (ends.size() == limit) return false;
    store.insert(store.end(), path.begin(), path.end());
    ends.push_back(store.size());
    return true;
  }

  bool grow() {
    uint32_t first = path.front(), last = path.back();
    if (!open(next[last], first) && !open(prior[first], last) && !add()) return false;
    for (uint32_t block : next[last]) {
      if (block != first && on[block]) continue;
      if (left == 0) return false;
      left -= 1;
      path.push_back(block);
      if (block == first) {
        if (!add()) return false;
      } else {
        on[block] = true;
        if (!grow()) return false;
        on[block] = false;
      }
      path.pop_back();
    }
    return true;
  }

  bool list() {
    for (uint32_t block = 2; block < next.size(); block++) {
      path.assign(1, block);
      on[block] = true;
      if (!grow()) return false;
      on[block] = false;
    }
    return true;
  }
};

int main() {
  std::string line;
  while (std::getline(std::cin, line)) {
    std::istringstream words(line);
    uint32_t blocks, limit, rounds, show, end;
    words >> blocks >> limit >> rounds >> show;
    std::vector<uint32_t> arcs;
    while (words >> end) arcs.push_back(end);
    for (uint32_t round = 0; round < rounds; round++) {
      Lister lister(blocks, limit, arcs);
      bool all = lister.list();
      if (round == 0) {
        if (all) std::printf("%zu", lister.ends.size());
        else std::printf("more");
      }
    }
    std::printf("\\n");
  }
}
"""


def chain():
    return 512, [(b, b + 1) for b in range(2, 511)] + [(511, 1)]


def ladder(steps):
    arcs = []
    for k in range(steps):
        arcs += [(2 + 2 * k, 3 + 2 * k), (2 + 2 * k, 4 + 2 * k), (3 + 2 * k, 4 + 2 * k)]
    return 3 + 2 * steps, arcs + [(2 + 2 * steps, 1)]


def loops(depth):
    """Loops, each within the one before: the test of loop k is block k + 3."""
    last = depth + 3
    arcs = [(2, 3)]
    for k in range(depth):
        arcs += [(3 + k, 4 + k), (3 + k, 2 + k if k else last + 1)]
    return last + 2, arcs + [(last, last - 1), (last + 1, 1)]


def complete(blocks):
    inner = range(3, 3 + blocks)
    return 3 + blocks, [(2, 3)] + [(a, b) for a in inner for b in inner if a != b] + [(2 + blocks, 1)]


def switch(cases):
    """A loop round a switch: its head is block 3, its cases come from block 4 on."""
    arcs = [(2, 3)]
    for case in range(4, 4 + cases):
        arcs += [(3, case), (case, 3)]
    return 5 + cases, arcs + [(3, 4 + cases), (4 + cases, 1)]


NETS = (
    ("chain of 510", chain(), 100),
    ("ladder of 13", ladder(13), 100),
    ("ladder of 15", ladder(15), 30),
    ("10 loops", loops(10), 30000),
    ("complete of 8", complete(8), 30),
    ("switch of 200", switch(200), 50),
)


def line(net, limit, rounds):
    blocks, arcs = net
    ends = sorted({(0, 2), *arcs})
    return f"{blocks} {limit} {rounds} 0 " + " ".join(f"{a} {b}" for a, b in ends) + "\n"


def seconds(program, net, limit, rounds):
    """The seconds of one round, and what the program wrote."""
    empty, _ = best(program, line(net, limit, 0), RUNS)
    taken, wrote = best(program, line(net, limit, rounds), RUNS)
    return (taken - empty) / rounds, wrote


def main():
    keep = sys.argv[1] if len(sys.argv) > 1 else None
    with tempfile.TemporaryDirectory() as made:
        folder = os.path.abspath(keep or made)
        ours = [program_in(folder, "paths_bench", CRATES, USES, {"src/main.rt": MAIN_RT})]
        write(folder, "plain.cpp", PLAIN_CPP)
        plain = [os.path.join(folder, "plain")]
        subprocess.run(["g++", "-O2", "-o", plain[0], os.path.join(folder, "plain.cpp")], check=True)
        holds = True
        for name, net, rounds in NETS:
            for limit in (10000, 65536):
                taken, wrote = seconds(ours, net, limit, rounds)
                yard, expected = seconds(plain, net, limit, rounds)
                holds = holds and wrote == expected and taken <= RATIO * yard
                print(f"{name} at {limit}: {wrote} in {taken * 1000:.3f} ms, C++ {expected} in {yard * 1000:.3f} ms,",
                      f"{taken / yard:.2f} times")
        taken, wrote = seconds(ours, ladder(20), 10000, 1)
        holds = holds and wrote == "more" and taken < GIVEN_UP
        print(f"ladder of 20 at 10000: {wrote} in {taken * 1000:.3f} ms")
        print("the bounds hold" if holds else "a bound does not hold")
        sys.exit(0 if holds else 1)


if __name__ == "__main__":
    main()
