#!/usr/bin/env python3
"""Times the rows of masks of about 10,000 prime paths, and `pass` beside a plain loop over the same entries.

Usage: bench/masks.py [FOLDER]   (default: a new temporary folder; with a FOLDER the scratch repository stays there)

Makes a scratch repository of the crates and a program, and builds it with `rt run`, which proves it too; builds the C++ beside it with
`g++ -O3`. The program lists the prime paths of a ladder of 13 `if`s and of a switch of 98 cases in a loop, and makes their rows; then it
goes on along rows of 1, 2 and 4 entries, two of each in turn, and so does the C++. Each figure is the best of nine runs, less the best of
a run of no rounds, over the rounds. The last line says whether the bounds hold: rows take below 0.1 seconds, and `pass` takes at most 1.5
times as long as the C++.
"""
import os
import subprocess
import sys
import tempfile

from primes import CRATES, MAIN_RT, ladder, line, switch
from scratch import best, program_in, write

RUNS = 9
ROWS_BOUND = 0.1
RATIO = 1.5
USES = "cov_base prime_paths path_masks path_rows word_rules"
ENTRIES = (1, 2, 4)
WORDS = 160
PASSES = 1 << 22


def row_of(size, salt):
    """A row of so many entries: the number of a word, and what it keeps, finishes and starts."""
    row = [size]
    for k in range(size):
        word = k * (WORDS // size) + salt
        row += [word, (1 << 61) - 1 - (1 << (k % 61)), 1 << ((k + salt) % 60), 1 << ((7 * k + 3 * salt) % 60)]
    return row


TABLES = {size: (row_of(size, 0), row_of(size, 1)) for size in ENTRIES}


def rust_rows():
    parts = []
    for size, rows in TABLES.items():
        for which, row in enumerate(rows):
            parts.append(f"const ROW_{size}_{which}: [u64; {len(row)}] = {row};\n")
    return "".join(parts)


def cpp_rows():
    parts = []
    for size, rows in TABLES.items():
        for which, row in enumerate(rows):
            numbers = ", ".join(f"{number}ull" for number in row)
            parts.append(f"const uint64_t row_{size}_{which}[{len(row)}] = {{{numbers}}};\n")
    return "".join(parts)


def rust_function(size):
    return f"""
/// Goes on along the two rows in turn, so many times.
fn along_{size}(times: u64, bits: &mut [u64; {WORDS}], seen: &mut [u64; {WORDS}]) {{
    for k in 0..times {{
        if k % 2 == 0 {{
            pass(bits, seen, &ROW_{size}_0);
        }} else {{
            pass(bits, seen, &ROW_{size}_1);
        }}
    }}
}}
"""


PASS_RT = """//! Goes on along rows, as many entries each and as often as its input says.
#![tactic(auto)]

use std::io;
use word_rules::pass;

""" + rust_rows() + "".join(rust_function(size) for size in ENTRIES) + """
fn main(rt: HostRuntime) -> io::Result<()> {
    let input = io::read_to_string(rt.alloc(), rt.stdin())?;
    let mut words = input.split_whitespace();
    let size = words.next().unwrap_or("");
    let times = words.next().unwrap_or("").parse::<u64>().unwrap_or(0);
    let mut bits = [0; %d];
    let mut seen = [0; %d];
    match size {
        "1" => along_1(times, &mut bits, &mut seen),
        "2" => along_2(times, &mut bits, &mut seen),
        _ => along_4(times, &mut bits, &mut seen),
    }
    let mut sum = 0u64;
    for word in bits.iter().chain(seen.iter()) {
        sum = sum.rotate_left(1) ^ word;
    }
    println!(rt; "{sum}")
}
""" % (WORDS, WORDS)

PASS_CPP = """// Goes on along rows, as many entries each and as often as its input says.
#include <cinttypes>
#include <cstdint>
#include <cstdio>

""" + cpp_rows() + """
static inline void pass(uint64_t *bits, uint64_t *seen, const uint64_t *row) {
  uint64_t size = row[0];
  const uint64_t *entry = row + 1;
  for (uint64_t k = 0; k < size; k++, entry += 4) {
    uint64_t kept = bits[entry[0]] & entry[1];
    seen[entry[0]] |= kept & entry[2];
    bits[entry[0]] = kept | entry[3];
  }
}

static void along(uint64_t times, uint64_t *bits, uint64_t *seen, const uint64_t *even, const uint64_t *odd) {
  for (uint64_t k = 0; k < times; k++) {
    if (k %% 2 == 0)
      pass(bits, seen, even);
    else
      pass(bits, seen, odd);
  }
}

int main() {
  uint64_t size, times, bits[%d] = {}, seen[%d] = {};
  if (std::scanf("%%" SCNu64 " %%" SCNu64, &size, &times) != 2) return 1;
  if (size == 1) along(times, bits, seen, row_1_0, row_1_1);
  else if (size == 2) along(times, bits, seen, row_2_0, row_2_1);
  else along(times, bits, seen, row_4_0, row_4_1);
  uint64_t sum = 0;
  for (uint64_t word : bits) sum = (sum << 1 | sum >> 63) ^ word;
  for (uint64_t word : seen) sum = (sum << 1 | sum >> 63) ^ word;
  std::printf("%%" PRIu64 "\\n", sum);
}
""" % (WORDS, WORDS)

# The listing's program, which makes the rows too, in each round.
ROWS_RT = MAIN_RT.replace("//! Lists the prime paths of the net in each line of its input, as often as the line says.",
                          "//! Lists the prime paths of the net in each line of its input, and makes their rows as often as the line says.")
ROWS_RT = ROWS_RT.replace("use path_rows::list_uncounted;", "use path_masks::rows_of;\nuse path_rows::list_uncounted;")
HEAD, TAIL = ROWS_RT.split("    for round in 0..rounds {")
_, TAIL = TAIL.split("fn put_answer", 1)
ROWS_RT = HEAD + """    let listing = list_uncounted(alloc, net, limit)?;
    let Listing::All(paths) = listing else {
        text.push_str("more")?;
        return Ok(());
    };
    let mut longs = 0;
    for _ in 0..rounds {
        let rows = rows_of(alloc, net, &paths)?;
        longs = rows.table().len();
    }
    let number = longs.to_string(alloc)?;
    text.push_str(number.as_str())?;
    if show {
        put_paths(alloc, &paths, text)?;
    }
    Ok(())
}

fn put_answer""" + TAIL


def rows_seconds(program, net, rounds):
    empty, _ = best(program, line(net, 10000, 0), RUNS)
    taken, wrote = best(program, line(net, 10000, rounds), RUNS)
    return (taken - empty) / rounds, wrote


def pass_seconds(program, size):
    times = PASSES // size
    empty, _ = best(program, f"{size} 0\n", RUNS)
    taken, wrote = best(program, f"{size} {times}\n", RUNS)
    return (taken - empty) / times, wrote


def main():
    keep = sys.argv[1] if len(sys.argv) > 1 else None
    with tempfile.TemporaryDirectory() as made:
        folder = os.path.abspath(keep or made)
        rows = [program_in(folder, "rows_bench", CRATES, USES, {"src/main.rt": ROWS_RT})]
        ours = [program_in(folder, "pass_bench", CRATES, USES, {"src/main.rt": PASS_RT}, b"1 1")]
        write(folder, "plain.cpp", PASS_CPP)
        plain = [os.path.join(folder, "plain")]
        subprocess.run(["g++", "-O3", "-o", plain[0], os.path.join(folder, "plain.cpp")], check=True)
        holds = True
        for name, net in (("ladder of 13", ladder(13)), ("switch of 98", switch(98))):
            taken, wrote = rows_seconds(rows, net, 5)
            holds = holds and wrote != "more" and taken < ROWS_BOUND
            print(f"rows of a {name}: {wrote} longs in {taken * 1000:.1f} ms")
        for size in ENTRIES:
            taken, wrote = pass_seconds(ours, size)
            yard, expected = pass_seconds(plain, size)
            holds = holds and wrote == expected and taken <= RATIO * yard
            print(f"pass over {size} entries: {taken * 1e9:.2f} ns, C++ {yard * 1e9:.2f} ns, {taken / yard:.2f} times")
        print("the bounds hold" if holds else "a bound does not hold")
        sys.exit(0 if holds else 1)


if __name__ == "__main__":
    main()
