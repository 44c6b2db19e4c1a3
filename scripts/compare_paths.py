#!/usr/bin/env python3
"""Compares the listing of prime paths with a plain lister on random nets.

Usage: scripts/compare_paths.py PROGRAM [NETS [SEED]]   (default: 3000 nets, seed 1)

The plain lister is written from the definition: of all lists of blocks those that are simple and along real arcs, and of these the ones
that are no proper part of another, in the order of a dictionary. The program is the one that bench/primes.py builds
(`bench/primes.py FOLDER` keeps it in FOLDER/crates/paths_bench/out). Each net has 3 to 7 blocks; each is listed at a limit that its prime
paths just meet, and at one below. The last line says how many answers differ.
"""
import itertools
import random
import subprocess
import sys


def is_simple(blocks):
    """No block twice, except that the first and the last may be equal."""
    return len(set(blocks[:-1])) == len(blocks) - 1 and len(set(blocks[1:])) == len(blocks) - 1


def simple_lists(count):
    """All lists of the blocks from 2 up that are simple: none has more than one block more than there are."""
    inner = range(2, count)
    lengths = range(1, len(inner) + 2)
    return [list_ for length in lengths for list_ in itertools.product(inner, repeat=length) if is_simple(list_)]


SIMPLE = {count: simple_lists(count) for count in range(3, 8)}


def is_part(part, whole):
    return any(whole[at:at + len(part)] == part for at in range(len(whole) - len(part) + 1))


def primes(count, arcs):
    """All prime paths, in the order of a dictionary."""
    paths = [p for p in SIMPLE[count] if all(pair in arcs for pair in zip(p, p[1:]))]
    return sorted(p for p in paths if not any(p != q and is_part(p, q) for q in paths))


def random_net(rng):
    """Blocks and real arcs that make a net: each block is reached from block 2."""
    while True:
        count = rng.randint(3, 7)
        share = rng.random()
        arcs = {(0, 2)}
        for a in range(2, count):
            for b in [1, *range(3, count)]:
                if rng.random() < share:
                    arcs.add((a, b))
        reached, todo = {2}, [2]
        while todo:
            a = todo.pop()
            for x, b in arcs:
                if x == a and b not in reached:
                    reached.add(b)
                    todo.append(b)
        if all(block in reached for block in range(2, count)):
            return count, arcs


def line(count, arcs, limit):
    ends = " ".join(f"{a} {b}" for a, b in sorted(arcs))
    return f"{count} {limit} 1 1 {ends}\n"


def text_of(paths):
    return str(len(paths)) + "".join(";" + "".join(f" {b}" for b in p) for p in paths)


def main():
    program = sys.argv[1]
    nets = int(sys.argv[2]) if len(sys.argv) > 2 else 3000
    rng = random.Random(int(sys.argv[3]) if len(sys.argv) > 3 else 1)
    lines, expected, paths = [], [], 0
    for _ in range(nets):
        count, arcs = random_net(rng)
        found = primes(count, arcs)
        paths += len(found)
        lines += [line(count, arcs, len(found)), line(count, arcs, len(found) - 1)]
        expected += [text_of(found), "more"]
    done = subprocess.run([program], input="".join(lines).encode(), capture_output=True, check=True)
    wrote = done.stdout.decode().splitlines()
    differing = sum(a != b for a, b in zip(wrote, expected)) + abs(len(wrote) - len(expected))
    print(f"{nets} nets, {paths} prime paths: {differing} answers differ")
    sys.exit(1 if differing else 0)


if __name__ == "__main__":
    main()
