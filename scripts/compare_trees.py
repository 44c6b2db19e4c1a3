#!/usr/bin/env python3
"""Compares the trees and the places of faults of random texts with those of scripts/c_trees.py.

Usage: scripts/compare_trees.py PROGRAM [TEXTS [SEED]]   (default: 20000 texts, seed 1)

The program reads a text from standard input and prints its tree or its fault for debugging, as the one does that bench/parse.py builds
(`bench/parse.py FOLDER` keeps it in FOLDER/crates/parse_bench/out). Half of the texts come from the grammar; in the others a few
tokens of such a text are left out, doubled, exchanged or put in.
"""
import random
import re
import subprocess
import sys

from c_trees import SHORTER, brief

WORDS = ("_Bool break case char continue default do else for if int long return short signed switch unsigned void while EOF a b f 1 017 "
         "0x1uL 'c' ( ) [ ] { } ; , : ? ~ ! + - * / % < > = & | ^ ++ -- << >> <= >= == != && || += -= *= /= %= &= ^= |= <<= >>=").split()
JOINTS = "* / % + - << >> < > <= >= == != & ^ | && ||".split()
CHANGES = "= += -= *= /= %= &= ^= |= <<= >>=".split()


class Maker:
    def __init__(self, random):
        self.random = random

    def some(self, *ways):
        return self.random.choice(ways)()

    def base(self):
        return self.random.choice(["int", "char", "long unsigned", "void", "short int", "_Bool"])

    def expr(self, n):
        return f"{self.assign(n)} , {self.assign(n)}" if self.random.random() < 0.1 else self.assign(n)

    def assign(self, n):
        if n > 0 and self.random.random() < 0.2:
            return f"{self.unary(n - 1)} {self.random.choice(CHANGES)} {self.assign(n - 1)}"
        return self.cond(n)

    def cond(self, n):
        if n > 0 and self.random.random() < 0.15:
            return f"{self.binary(n - 1)} ? {self.expr(n - 1)} : {self.cond(n - 1)}"
        return self.binary(n)

    def binary(self, n):
        parts = [self.cast(n - 1)]
        while n > 0 and self.random.random() < 0.4:
            parts += [self.random.choice(JOINTS), self.cast(n - 1)]
        return " ".join(parts)

    def cast(self, n):
        return f"( {self.base()} ) {self.cast(n - 1)}" if n > 0 and self.random.random() < 0.1 else self.unary(n)

    def unary(self, n):
        roll = self.random.random()
        if n > 0 and roll < 0.1:
            return f"{self.random.choice(['++', '--'])} {self.unary(n - 1)}"
        if n > 0 and roll < 0.25:
            return f"{self.random.choice('+-~!')} {self.cast(n - 1)}"
        return self.primary(n) + " ++" * (self.random.random() < 0.1) + " --" * (self.random.random() < 0.1)

    def primary(self, n):
        roll = self.random.random()
        if n <= 0 or roll < 0.5:
            return self.random.choice(["a", "b", "1", "017", "0x1uL", "'c'", "EOF"])
        if roll < 0.7:
            return f"( {self.expr(n - 1)} )"
        if roll < 0.85:
            return f"f ( {' , '.join(self.assign(n - 1) for _ in range(self.random.randrange(3)))} )"
        return f"a [ {self.expr(n - 1)} ]"

    def vars(self, n):
        return f"{self.base()} {' , '.join(self.var(n) for _ in range(self.random.randint(1, 3)))} ;"

    def var(self, n):
        size = self.random.choice(["", "", "[ ]", f"[ {self.cond(n - 1)} ]"])
        values = " , ".join(self.assign(n - 1) for _ in range(self.random.randint(1, 3)))
        init = self.random.choice(["", f"= {self.assign(n - 1)}", f"= {{ {values}{self.random.choice(['', ' ,'])} }}"])
        return f"{self.random.choice('ab')} {size} {init}"

    def items(self, n):
        return " ".join(self.item(n) for _ in range(self.random.randrange(4)))

    def item(self, n):
        return self.vars(n) if self.random.random() < 0.2 else self.stmt(n)

    def maybe(self, n):
        return self.random.choice(["", self.expr(n - 1)])

    def stmt(self, n):
        if n <= 0:
            return self.random.choice([";", "break ;", "continue ;", "return ;", "a ++ ;"])
        return self.some(
            lambda: f"{{ {self.items(n - 1)} }}", lambda: f"{self.expr(n - 1)} ;", lambda: f"if ( {self.expr(n - 1)} ) {self.stmt(n - 1)}",
            lambda: f"if ( {self.expr(n - 1)} ) {self.stmt(n - 1)} else {self.stmt(n - 1)}",
            lambda: f"while ( {self.expr(n - 1)} ) {self.stmt(n - 1)}", lambda: f"do {self.stmt(n - 1)} while ( {self.expr(n - 1)} ) ;",
            lambda: f"for ( {self.random.choice([self.vars(n - 1), self.maybe(n) + ' ;'])} {self.maybe(n)} ; {self.maybe(n)} ) {self.stmt(n - 1)}",
            lambda: f"switch ( {self.expr(n - 1)} ) {{ {' '.join(self.label(n - 1) for _ in range(self.random.randrange(4)))} }}",
            lambda: f"return {self.maybe(n)} ;")

    def label(self, n):
        return self.some(lambda: f"case {self.cond(n - 1)} :", lambda: "default :", lambda: self.item(n))

    def outer(self, n):
        if self.random.random() < 0.3:
            return self.vars(n)
        named = self.random.random() < 0.8
        params = " , ".join(f"{self.base()} {'a' if named or self.random.random() < 0.5 else ''}" for _ in range(self.random.randrange(3)))
        return f"{self.base()} f ( {self.random.choice([params, 'void'])} ) {self.random.choice([';', '{ ' + self.items(n) + ' }'])}"

    def text(self):
        return " ".join(self.outer(self.random.randrange(6)) for _ in range(self.random.randint(1, 3)))


def spoiled(random, text):
    tokens = text.split()
    for _ in range(random.randint(1, 3)):
        at = random.randrange(len(tokens)) if tokens else 0
        way = random.randrange(4)
        if way == 0 and tokens:
            del tokens[at]
        elif way == 1 and tokens:
            tokens.insert(at, tokens[at])
        elif way == 2 and tokens:
            tokens[at] = random.choice(WORDS)
        else:
            tokens.insert(at, random.choice(WORDS))
    return random.choice([" ", "\n", " "]).join(tokens)


def shortened(wrote):
    for old, new in SHORTER:
        wrote = wrote.replace(old, new)
    return re.sub(r"^TooDeep\(\d+\)$", "TooDeep", wrote)


def main():
    program, count = sys.argv[1], int(sys.argv[2]) if len(sys.argv) > 2 else 20_000
    source = random.Random(int(sys.argv[3]) if len(sys.argv) > 3 else 1)
    maker, trees, faults = Maker(source), 0, 0
    for number in range(count):
        text = maker.text()
        if number % 2:
            text = spoiled(source, text)
        if len(text) > 20_000:
            continue
        expected = brief(text)
        found = shortened(subprocess.run([program], input=text.encode(), capture_output=True).stdout.decode().strip())
        if expected != found:
            sys.exit(f"{text!r}\n is here {expected}\n and there {found}")
        trees += expected.startswith("Tree")
        faults += not expected.startswith("Tree")
    print(f"{trees} trees and {faults} faults agree")


main()
