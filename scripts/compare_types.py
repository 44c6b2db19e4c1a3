#!/usr/bin/env python3
"""Compares the faults of names and types of random sources with those of scripts/c_types.py, and what gcc refuses with both.

Usage: scripts/compare_types.py PROGRAM [SOURCES [SEED]]   (default: 5000 sources, seed 1)

The program reads a text from standard input and prints its fault for debugging, or anything else where it is accepted, as the one does
that bench/check.py builds (`bench/check.py FOLDER` keeps it in FOLDER/crates/check_bench/out). Of eight sources one has no fault; in each
other one fault is planted, by one of the ways below in turn, at a random place of a random source. The fault that the program names has
to be one that stands, and one of the planted kind has to stand.

Of each way the first two sources go to `gcc -std=c17 -pedantic-errors -fsyntax-only` too. The last lines say by which ways it accepts a
source that is refused here (the profile is narrower there), and whether it refused one that is accepted here.
"""
import collections
import os
import random
import shutil
import subprocess
import sys
import tempfile

from c_types import faults_of

TYPES = ["_Bool", "char", "signed char", "unsigned char", "short", "unsigned short", "int", "unsigned", "long", "unsigned long"]
JOINTS = "* + - << >> < > <= >= == != & ^ | && ||".split()
CHANGES = "= += -= *= &= ^= |=".split()

# What each source has: the planted statements use these names, which nothing hides.
FIRST = """int one, many[3];
int bodiless(int a);
int give(void) { return 1; }
int take(int a, int b) { return a + b; }
void quiet(int a) { one = a; }
"""

# A statement of one fault. `again` is a name of the innermost scope, `gone` one that is out of scope, `fresh` one that is new.
STATEMENTS = {
    "Unknown": ["fresh = 1;", "one = fresh + 1;", "fresh();", "fresh[0] = 1;", "{ int fresh; } fresh++;",
        "for (int fresh = 0; fresh < 3; fresh++) ; fresh--;", "gone = 1;", "{ int fresh[fresh]; }", "while (fresh) ;", "take(1, fresh);"],
    "Redeclared": ["int again;", "{ int fresh; char fresh; }", "{ int fresh, fresh[2]; }",
        "switch (1) { int fresh; default: ; int fresh; }", "for (int fresh, fresh; ; ) ;"],
    "NoBody": ["bodiless(1);", "one = bodiless(1) + 1;"],
    "ArgCount": ["take(1);", "take(1, 2, 3);", "give(0);", "putchar();", "exit(1, 2);"],
    "NotAFunction": ["one();", "many(1);", "{ int give; give(); }"],
    "NotAnArray": ["one[0] = 1;", "one = give[0];", "{ int many; many[0]++; }"],
    "NotAVariable": ["one = give;", "give;", "if (give) ;", "give = 1;", "1 = one;", "-one = 1;", "give()++;", "(one ? one : one)--;",
        "++one++;", "take(1, take);"],
    "ArrayValue": ["one = many;", "many;", "if (many) ;", "many = 1;", "{ int fresh[2] = 1; }", "{ int fresh = {1}; }", "take(many, 1);",
        "many++;"],
    "VoidValue": ["one = quiet(1);", "take(1, quiet(1));", "if (quiet(1)) ;", "one = (1, quiet(1));", "one = one ? quiet(1) : quiet(2);",
        "one ? quiet(1) : 1;", "one = (int) quiet(1);", "!quiet(1);", "many[quiet(1)] = 1;", "{ void fresh; }", "(void) 1 + 1;",
        "switch (quiet(1)) { default: ; }", "wrong return"],
    "BadCase": ["switch (one) { case one: ; }", "switch (one) { case give(): ; }", "switch (one) { case 1 / 0: ; }",
        "switch (one) { case 1 || one: ; }", "switch (one) { case 1 << 32: ; }", "switch (one) { case (one, 1): ; }",
        "switch (one) { case 2147483647 + 1: ; }", "switch (one) { case -1 << 1: ; }", "switch (one) { case 0 && one: ; }"],
    "TwiceCase": ["switch (one) { case 1: case 1: ; }", "switch (one) { case 1: ; default: ; case 3 - 2: ; }",
        "switch (one) { case 4294967296: ; case 0: ; }", "switch (one) { default: ; default: ; }",
        "switch ((char) one) { case -1: ; case 4294967295: ; }", "switch ((unsigned) one) { case -1: ; case 4294967295u: ; }"],
    "OutsideLoop": ["outside break;", "outside continue;", "outside switch (1) { default: continue; }"],
    "ArraySize": ["{ int fresh[0]; }", "{ int fresh[1 - 2]; }", "{ int fresh[1048577]; }", "{ int fresh[2] = {1, 2, 3}; }",
        "{ int fresh[]; }", "{ int fresh[one]; }", "{ int fresh[1 / 0]; }", "{ int fresh[1 || one]; }"],
}

# A part of a file of one fault.
PARAMETERS = ", ".join(f"int a{k}" for k in range(65))
PARTS = {
    "Redeclared": ["int one;", "void take(int a, int b);", "int take(int a);", "int take(int a, char b);",
        "int take(int a, int b) { return a; }", "int many(void);", "int getchar(int a);", "int getchar(void) { return 1; }", "int exit;",
        "int fresh(int a, int a);", "int fresh(int a) { int a; return 1; }", "int fresh, fresh;"],
    "VoidValue": ["void fresh;", "int fresh(void a);", "int fresh(void, int);", "void fresh[2];"],
    "NotConstant": ["int fresh = one;", "int fresh = give();", "int fresh = 1 / 0;", "int fresh[2] = {1, one};", "int fresh = (1, 2);",
        "int fresh = 2147483647 + 1;", "int fresh = 1 << 31;", "int fresh = 1 || one;", "int fresh = (one = 1);", "int fresh = fresh;",
        "int fresh = 0 ? 1 % 0 : 1 % 0;"],
    "ArraySize": ["int fresh[0];", "int fresh[-1];", "int fresh[1048577];", "int fresh[2] = {1, 2, 3};", "int fresh[];",
        "int fresh[one];"],
    "ArrayValue": ["int fresh[2] = 1;", "int fresh = {1};"],
    "TooManyParameters": [f"int fresh({PARAMETERS});", f"int fresh({PARAMETERS}) {{ return 1; }}"],
}

# Another head in place of that of the main function.
MAINS = {"NoMain": ["int moin(void)", "void main(void)", "int main(int a)", "long main(void)"]}


class Slot:
    """A place of a source where something can be planted."""

    def __init__(self, names, gone, words, result):
        self.names, self.gone, self.words, self.result = list(names), gone, words, result

    def planted(self, way, fresh, dice):
        """The way's text for this place, or none where it doesn't fit it."""
        word = way.split()[0]
        if word == "outside":
            way = way[8:]
            if "loop" in self.words or ("switch" in self.words and way == "break;"):
                return None
        if way == "wrong return":
            way = dice.choice(["return 1;", "return quiet(1);"]) if self.result == "void" else "return;"
        for name, found in (("again", self.names), ("gone", self.gone)):
            if name in way:
                if not found:
                    return None
                way = way.replace(name, dice.choice(found))
        return way.replace("fresh", fresh)


class Maker:
    """Makes sources without faults: lists of texts and slots."""

    def __init__(self, dice):
        self.dice, self.scopes, self.closed, self.words, self.functions, self.count = dice, [], [], [], [], 0

    def chance(self, part):
        return self.dice.random() < part

    # -- expressions
    def named(self, is_array):
        found = {}
        for scope in self.scopes:
            found.update(scope)
        return [name for name, length in found.items() if (length is not None) == is_array]

    def place(self, n):
        arrays, scalars = self.named(True), self.named(False)
        if n > 0 and arrays and self.chance(0.4):
            return f"{self.dice.choice(arrays)}[{self.expr(n - 1)}]"
        return self.dice.choice(scalars) if scalars else "one"

    def call(self, n):
        name, result, params = self.dice.choice(self.functions)
        return f"{name}({', '.join(self.expr(n - 1) for _ in range(params))})", result

    def expr(self, n):
        roll = self.dice.random()
        if n <= 0 or roll < 0.25:
            return self.dice.choice(["1", "0", "7", "'a'", "EOF", "2u", "3l", "0x10", self.place(0), self.place(0)])
        if roll < 0.5:
            return f"{self.expr(n - 1)} {self.dice.choice(JOINTS)} {self.expr(n - 1)}"
        if roll < 0.6:
            return f"({self.expr(n - 1)})"
        if roll < 0.68:
            return f"{self.dice.choice('+-~!')} {self.place(n - 1)}"
        if roll < 0.76:
            return f"({self.place(n - 1)} {self.dice.choice(CHANGES)} {self.expr(n - 1)})"
        if roll < 0.82:
            return self.dice.choice([f"{self.place(n - 1)}++", f"--{self.place(n - 1)}"])
        if roll < 0.87:
            return f"({self.expr(n - 1)} ? {self.expr(n - 1)} : {self.expr(n - 1)})"
        if roll < 0.92:
            return f"({self.dice.choice(TYPES)}) {self.place(n - 1)}"
        if roll < 0.96:
            return f"({self.expr(n - 1)}, {self.expr(n - 1)})"
        text, result = self.call(n)
        return self.expr(n - 1) if result == "void" else text

    def constant(self, n):
        roll = self.dice.random()
        if n <= 0 or roll < 0.3:
            return str(self.dice.randint(0, 9))
        if roll < 0.6:
            return f"{self.constant(n - 1)} {self.dice.choice('+ - * < == & | && ||'.split())} {self.constant(n - 1)}"
        if roll < 0.7:
            return f"({self.constant(n - 1)})"
        if roll < 0.8:
            return f"({self.dice.choice(TYPES)}) {self.dice.randint(0, 9)}"
        return f"({self.constant(n - 1)} ? {self.constant(n - 1)} : {self.constant(n - 1)})"

    # -- declarations
    def name(self):
        """A name that the innermost scope hasn't."""
        free = [name for name in "abcdefgh" if name not in self.scopes[-1]]
        if free:
            return self.dice.choice(free)
        self.count += 1
        return f"n{self.count}"

    def var(self, maker, n):
        name, is_array = self.name(), self.chance(0.3)
        length = self.dice.randint(1, 5) if is_array else None
        self.scopes[-1][name] = length
        if is_array:
            values = ", ".join(maker(n) for _ in range(self.dice.randint(1, length)))
            size = "" if self.chance(0.3) else str(length)
            init = f" = {{{values}{', ' if self.chance(0.3) else ''}}}" if size == "" or self.chance(0.5) else ""
            return f"{name}[{size}]{init}"
        return name + (f" = {maker(n)}" if self.chance(0.6) else "")

    def vars(self, maker, n):
        return f"{self.dice.choice(TYPES)} {', '.join(self.var(maker, n) for _ in range(self.dice.randint(1, 3)))};"

    # -- statements
    def slot(self):
        visible = {name for scope in self.scopes for name in scope}
        return Slot(self.scopes[-1], [name for name in self.closed if name not in visible], set(self.words), self.result)

    def within(self, rule, *words):
        self.scopes.append({})
        self.words += words
        made = rule()
        self.closed += self.scopes.pop()
        del self.words[len(self.words) - len(words):]
        return made

    def items(self, n):
        made = [self.slot()]
        for _ in range(self.dice.randint(1, 4)):
            made += [self.vars(self.expr, 2)] if self.chance(0.3) else self.stmt(n)
            made.append(self.slot())
        return made

    def block(self, n, *words):
        return self.within(lambda: ["{ "] + self.items(n) + ["}"], *words)

    def return_(self):
        return ["return;"] if self.result == "void" else [f"return {self.expr(2)};"]

    def labelled(self, n):
        values = self.dice.sample(range(20), self.dice.randint(1, 4))
        made = ["{ "]
        for value in values:
            made += [f"case {value}: "] + self.stmt(n - 1)
        return made + (["default: ", ";", "}"] if self.chance(0.5) else ["}"])

    def for_(self, n):
        first = self.vars(self.expr, 1) if self.chance(0.4) else f"{self.expr(1)};"
        return [f"for ({first} {self.expr(1)}; {self.expr(1)}) "] + self.block(n - 1, "loop")

    def stmt(self, n):
        ways = [lambda: [f"{self.expr(3)};"], lambda: [self.call(2)[0] + ";"], lambda: [";"], lambda: [f"(void) {self.place(1)};"]]
        if n > 0:
            ways += [lambda: self.block(n - 1), lambda: [f"if ({self.expr(2)}) "] + self.block(n - 1),
                     lambda: [f"if ({self.expr(2)}) "] + self.block(n - 1) + [" else "] + self.block(n - 1),
                     lambda: [f"while ({self.expr(2)}) "] + self.block(n - 1, "loop"),
                     lambda: ["do "] + self.block(n - 1, "loop") + [f" while ({self.expr(2)});"], lambda: self.within(lambda: self.for_(n)),
                     lambda: [f"switch ({self.expr(2)}) "] + self.within(lambda: self.labelled(n), "switch"), self.return_]
        if "loop" in self.words:
            ways.append(lambda: ["continue;"])
        if self.words:
            ways.append(lambda: ["break;"])
        return self.dice.choice(ways)()

    # -- sources
    def function(self, name, result, names):
        """A function with these parameters, and where it may be called."""
        self.result = result
        self.functions.append((name, result, len(names)))
        self.scopes.append({param: None for param in names})
        params = ", ".join(f"{self.dice.choice(TYPES)} {param}" for param in names) or self.dice.choice(["", "void"])
        made = [f"{result} {name}({params}) {{ "] + self.items(2) + ["}"]
        self.closed = list(self.scopes.pop())
        return made

    def source(self):
        """The parts of a source, its main function among them."""
        self.scopes = [{}]
        self.functions = [("take", "int", 2), ("quiet", "void", 1), ("give", "int", 0), ("getchar", "int", 0), ("putchar", "int", 1)]
        parts = [[FIRST]]
        for k in range(self.dice.randint(1, 3)):
            if self.chance(0.5):
                parts.append([self.vars(self.constant, 2)])
            result, names = self.dice.choice(["int", "void", "char", "long"]), self.dice.sample("abcd", self.dice.randint(0, 3))
            parts.append(self.function(f"f{k}", result, names))
        return parts + [self.function("main", "int", [])]


def source_of(dice, fault, way):
    """A text with a fault planted in this way; none where the way fits no place of the source."""
    parts = Maker(dice).source()
    fresh = dice.choice(["fresh", "z", "a_1"])
    if way in PARTS.get(fault, []):
        parts.insert(dice.randint(1, len(parts)), [way.replace("fresh", fresh)])
    elif way in MAINS.get(fault, []):
        parts[-1][0] = parts[-1][0].replace("int main(void)", way).replace("int main()", way)
    slots = [piece for part in parts for piece in part if isinstance(piece, Slot)]
    is_statement = way in STATEMENTS.get(fault, [])
    if is_statement:
        fits = [slot for slot in slots if slot.planted(way, fresh, random.Random(0)) is not None]
        if not fits:
            return None
        slots = [dice.choice(fits)]
    pieces = []
    for piece in (piece for part in parts for piece in part + ["\n"]):
        is_chosen = is_statement and piece is slots[0]
        pieces.append(piece if isinstance(piece, str) else piece.planted(way, fresh, dice) + " " if is_chosen else "")
    return "".join(pieces)


DECLARED = "#define EOF (-1)\nint getchar(void);\nint putchar(int);\nvoid exit(int);\n"


def gcc_says(folder, text):
    """The first error of gcc, or none."""
    if not shutil.which("gcc"):
        return None
    command = ["gcc", "-std=c17", "-pedantic-errors", "-fsyntax-only", "-include", os.path.join(folder, "declared.h"), "-x", "c", "-"]
    done = subprocess.run(command, input=text.encode(), capture_output=True)
    errors = [line for line in done.stderr.decode().splitlines() if "error:" in line]
    return errors[0].split("error:")[1].strip() if errors else None


def main():
    program, count = sys.argv[1], int(sys.argv[2]) if len(sys.argv) > 2 else 5_000
    dice = random.Random(int(sys.argv[3]) if len(sys.argv) > 3 else 1)
    ways = [(fault, way) for kinds in (STATEMENTS, PARTS, MAINS) for fault, found in kinds.items() for way in found]
    tried, accepted, refused, seen = collections.Counter(), collections.Counter(), [], collections.Counter()
    with tempfile.TemporaryDirectory() as folder:
        with open(os.path.join(folder, "declared.h"), "w", encoding="utf-8") as file:
            file.write(DECLARED)
        number = 0
        while number < count:
            fault, way = ("", "") if number % 8 == 7 else ways[(number - number // 8) % len(ways)]
            text = source_of(dice, fault, way)
            if text is None:
                continue
            number += 1
            expected = faults_of(text)
            found = subprocess.run([program], input=text.encode(), capture_output=True).stdout.decode().strip()
            agrees = found in expected if expected else "(" not in found
            if not agrees or fault not in ",".join(expected) or (not fault and expected):
                sys.exit(f"{text}\n by {fault} {way}: here {expected}, there {found}")
            seen[fault] += 1
            if tried[way] < 2 or (not fault and tried[way] < 100):
                tried[way] += 1
                error = gcc_says(folder, text)
                accepted[way] += error is None
                refused += [error] * (not fault and error is not None)
    print(f"{count} sources agree: " + ", ".join(f"{n} {fault or 'fine'}" for fault, n in sorted(seen.items())))
    print("gcc accepts " + "; ".join(f"{fault}: {way[:60]}" for fault, way in ways if accepted[way] == tried[way] > 0))
    print(f"gcc refuses {len(refused)} of {tried['']} accepted sources: {collections.Counter(refused).most_common(3)}")
    sys.exit(1 if refused else 0)


main()
