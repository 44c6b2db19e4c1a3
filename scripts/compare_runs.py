#!/usr/bin/env python3
"""Compares the runs of random sources' graphs with the runs of what gcc builds of the same sources.

Usage: scripts/compare_runs.py [SOURCES [SEED [FOLDER]]]   (default: 300 sources, seed 1, a new temporary folder)

Makes a scratch repository of source_graphs, what it stands on, and a program that makes the graphs of a source and runs them with the
plain interpreter of crates/lower_rows, and builds it with `rt run`. The program's input is a source, a byte 0 and the input of the run;
it prints the ending and the output. gcc builds the source with checks of undefined behaviour, so that its program stops where the run
of the graphs traps. The sources read only cells that were set, and no operand depends on the order of another's effects. Compared are
the status, or the line of the trap, and all output.
"""
import os
import random
import re
import subprocess
import sys
import tempfile

sys.path.insert(0, os.path.join(os.path.dirname(os.path.dirname(os.path.abspath(__file__))), "bench"))
from scratch import TOP, program_in  # noqa: E402

CRATES = ("cov_base", "int_ops", "c_tokens", "c_tree", "c_grammar", "c_syntax", "c_exprs", "c_parser", "c_typing", "c_values", "c_types", "stack_ops",
          "c_meaning", "flow_graph", "c_lower", "lower_agrees", "fake_arcs", "prune_agrees", "source_graphs")
USES = "cov_base int_ops c_tree stack_ops flow_graph source_graphs"
TYPES = ["_Bool", "char", "signed char", "unsigned char", "short", "unsigned short", "int", "unsigned", "long", "unsigned long"]
JOINTS = "* + - / % << >> < > <= >= == != & ^ | && || + - *".split()
CHANGES = "= += -= *= /= %= &= ^= |= <<= >>= = =".split()
CHECKS = ["-fsanitize=undefined", "-fno-sanitize-recover=all"]

MAIN_RT = """//! Runs the graphs of a source, which stands before a byte 0, on the input behind it.
#![tactic(auto)]

mod interpreter;

use cov_base::{Refusal, SOURCE_LIMIT};
use interpreter::run;
use source_graphs::graphs_of;
use std::io;

fn main(rt: HostRuntime) -> io::Result<()> {
    let text = io::read_to_string(rt.alloc(), rt.stdin())?;
    let bytes = text.as_bytes();
    let end = bytes.iter().position(|byte| *byte == 0).unwrap_or(bytes.len());
    if end > SOURCE_LIMIT || end > bytes.len() {
        return println!(rt; "too long");
    }
    let unit = match graphs_of(rt.alloc(), &bytes[..end]) {
        Ok(unit) => unit,
        Err(Refusal::Refused(fault)) => return println!(rt; "{fault:?}"),
        Err(Refusal::NoMemory) => return println!(rt; "no memory"),
    };
    let start = if end < bytes.len() { end + 1 } else { end };
    match run(rt.alloc(), &unit, &bytes[start..], 1_000_000, 100_000_000) {
        Ok((output, stop)) => println!(rt; "{stop:?} {output:?}"),
        Err(_) => println!(rt; "no memory"),
    }
}
"""

# Puts a byte at once, so that none is lost where the program stops.
BEFORE = """#include <unistd.h>
#define EOF (-1)
int getchar(void);
void exit(int);
static int put_now(int c) { unsigned char byte = c; return write(1, &byte, 1) == 1 ? byte : -1; }
#define putchar put_now
#line 1
"""


class Maker:
    """Makes sources that C defines but for traps."""

    def __init__(self, dice):
        self.dice, self.scopes, self.words, self.functions, self.loops, self.depth = dice, [{}], [], [], 0, 0

    def chance(self, part):
        return self.dice.random() < part

    # -- expressions without effects
    def names(self, is_array):
        found = {}
        for scope in self.scopes:
            found.update(scope)
        return [(name, length) for name, length in found.items() if (length is not None) == is_array]

    def index(self, length, n):
        if self.chance(0.6):
            return str(self.dice.randrange(length))
        return self.expr(n) if self.chance(0.1) else f"(({self.expr(n)}) & {length - 1})"

    def read(self, n):
        arrays, scalars = self.names(True), self.names(False)
        if arrays and self.chance(0.3):
            name, length = self.dice.choice(arrays)
            return f"{name}[{self.index(length, n - 1)}]"
        return self.dice.choice(scalars)[0] if scalars else "1"

    def number(self):
        return self.dice.choice(["'a'", "EOF", "4u", "5l", "017", "0x7f", "big"] if self.chance(0.3) else ["0", "1", "2", "3", "4", "7"])

    def expr(self, n):
        roll = self.dice.random()
        if n <= 0 or roll < 0.2:
            return self.number() if self.chance(0.35) else self.read(n)
        if roll < 0.6:
            return f"({self.expr(n - 1)} {self.dice.choice(JOINTS)} {self.expr(n - 1)})"
        if roll < 0.7:
            return f"{self.dice.choice('+-~!')}({self.expr(n - 1)})"
        if roll < 0.8:
            return f"({self.dice.choice(TYPES)})({self.expr(n - 1)})"
        if roll < 0.9:
            return f"({self.expr(n - 1)} ? {self.expr(n - 1)} : {self.expr(n - 1)})"
        return self.read(n)

    def change(self, n):
        """One effect, as a whole expression."""
        target = self.read(n)
        while re.fullmatch(r"[\d'].*|.*i\d+", target):
            target = "g"
        roll = self.dice.random()
        if roll < 0.25:
            return self.dice.choice([f"{target}++", f"--{target}", f"{target}--", f"++{target}"])
        if roll < 0.45 and self.functions:
            name, params = self.dice.choice(self.functions)
            return f"g = {name}({', '.join(self.expr(1) for _ in range(params))})"
        return f"{target} {self.dice.choice(CHANGES)} {self.expr(n)}"

    def effect(self, n):
        """Effects one after another, each done before the next."""
        roll = self.dice.random()
        if n > 0 and roll < 0.1:
            return f"{self.expr(1)} {self.dice.choice(['&&', '||'])} ({self.effect(n - 1)})"
        if n > 0 and roll < 0.2:
            return f"{self.expr(1)} ? ({self.effect(n - 1)}) : ({self.effect(n - 1)})"
        if n > 0 and roll < 0.3:
            return f"{self.effect(n - 1)}, {self.effect(n - 1)}" if self.chance(0.5) else f"g = ({self.effect(n - 1)}, {self.expr(1)})"
        if roll < 0.4:
            return f"putchar({self.expr(1)})"
        return "g = getchar()" if roll < 0.45 else self.change(n)

    # -- statements
    def declared(self):
        name, is_array = f"v{self.dice.randrange(5)}", self.chance(0.3)
        if name in self.scopes[-1]:
            return self.effect(2) + ";"
        if is_array:
            length = self.dice.choice([1, 2, 4])
            values = ", ".join(self.expr(1) for _ in range(self.dice.randint(1, length)))
            text = f"{self.dice.choice(TYPES)} {name}[{length}] = {{{values}}};"
        else:
            length, text = None, f"{self.dice.choice(TYPES)} {name} = {self.expr(2)};"
        if re.search(rf"\b{name}\b", text.split("=", 1)[1]):
            text = text.split("=", 1)[0] + ("= {1};" if is_array else "= 1;")
        self.scopes[-1][name] = length
        return text

    def block(self, n, *words):
        self.scopes.append({})
        self.words += words
        lines = ["{"]
        for _ in range(self.dice.randint(1, 3)):
            lines += self.stmt(n) if self.chance(0.8) else [self.declared()]
        lines.append("}")
        self.scopes.pop()
        del self.words[len(self.words) - len(words):]
        return lines

    def loop(self, n):
        self.loops += 1
        name, most = f"i{self.loops}", self.dice.randint(1, 4)
        self.scopes.append({name: None})
        kind = self.dice.randrange(3)
        if kind == 0:
            lines = [f"for (int {name} = 0; {name} < {most}; {name}++)"] + self.block(n - 1, "loop")
        elif kind == 1:
            lines = ["{", f"int {name} = {most};", f"while ({name}-- > 0 && {self.expr(1)})"] + self.block(n - 1, "loop") + ["}"]
        else:
            lines = ["{", f"int {name} = {most};", "do"] + self.block(n - 1, "loop") + [f"while (--{name} > 0);", "}"]
        self.scopes.pop()
        return lines

    def switch(self, n):
        lines = [f"switch ({self.expr(1)} & 3)", "{"]
        labels = self.dice.sample(["case 0:", "case 1:", "case 2:", "case 3:", "default:"], self.dice.randint(1, 5))
        for label in labels:
            lines.append(label)
            if self.chance(0.8):
                lines += self.block(n - 1, "switch") + (["break;"] if self.chance(0.5) else [])
        return lines + [";", "}"]

    def stmt(self, n):
        roll = self.dice.random()
        if n <= 0 or roll < 0.35:
            return [self.effect(2) + ";"]
        if roll < 0.5:
            return [f"if ({self.expr(2)})"] + self.block(n - 1) + (["else"] + self.block(n - 1) if self.chance(0.5) else [])
        if roll < 0.7:
            return self.loop(n)
        if roll < 0.85:
            return self.switch(n)
        if roll < 0.93 and self.words:
            return ["continue;" if "loop" in self.words and self.chance(0.5) else "break;"]
        if roll < 0.95:
            return [f"exit({self.expr(1)});"] if self.chance(0.3) else [f"return {self.expr(1)};"]
        return self.block(n - 1)

    def function(self, name, params):
        self.scopes.append({f"p{k}": None for k in range(params)})
        head = ", ".join(f"{self.dice.choice(TYPES)} p{k}" for k in range(params)) or "void"
        lines = [f"{self.dice.choice(['int', 'char', 'long', 'unsigned']) if name != 'main' else 'int'} {name}({head}) {{"]
        for _ in range(self.dice.randint(2, 6)):
            lines += [self.declared()] if self.chance(0.4) else self.stmt(3)
        self.scopes.pop()
        self.functions.append((name, params))
        return lines + [f"return {self.expr_at_end()};", "}"]

    def expr_at_end(self):
        return self.dice.choice(["g", "g + 1", "g & 255", "h[1]", "7"])

    def source(self):
        self.scopes[0].update({"g": None, "h": 4, "u": None})
        lines = ["int g = 1, big = 2147483647;", "short h[4] = {1, 2, 3};", "unsigned u = 4000000000;"]
        for k in range(self.dice.randint(0, 2)):
            lines += self.function(f"f{k}", self.dice.randrange(3))
        return "\n".join(lines + self.function("main", 0)) + "\n"


def gcc_run(folder, text, given):
    """What gcc's program puts, and its ending: a status, the line where it stops, or none where it runs for long."""
    source, program = os.path.join(folder, "a.c"), os.path.join(folder, "a")
    with open(source, "w", encoding="utf-8") as file:
        file.write(BEFORE + text)
    done = subprocess.run(["gcc", "-std=c17", "-w", "-O0", *CHECKS, "-o", program, source], capture_output=True)
    if done.returncode != 0:
        sys.exit(f"{text}\n{done.stderr.decode()}")
    try:
        done = subprocess.run([program], input=given, capture_output=True, timeout=10)
    except subprocess.TimeoutExpired:
        return None, b""
    stops = re.search(r"a\.c:(\d+):\d+: runtime error: (.*)", done.stderr.decode(errors="replace"))
    return (f"line {stops.group(1)}" if stops else str(done.returncode)), done.stdout


def here_run(program, text, given):
    """The same of the graphs' run."""
    wrote = subprocess.run([program], input=text.encode() + b"\0" + given, capture_output=True).stdout.decode().strip()
    found = re.fullmatch(r"Over\((Returned|Exited|Trapped|OutOfTurns)(?:\((?:(\w+), )?(\d+)\))?\) \[(.*)\]", wrote)
    if not found:
        sys.exit(f"{text}\n{wrote}")
    kind, trap, number, output = found.groups()
    ending = {"Trapped": f"line {number}", "OutOfTurns": None}.get(kind, number)
    return ending, bytes(int(byte) for byte in output.split(", ") if byte), trap


def main():
    count, seed = int(sys.argv[1]) if len(sys.argv) > 1 else 300, int(sys.argv[2]) if len(sys.argv) > 2 else 1
    dice = random.Random(seed)
    tally = {}
    with tempfile.TemporaryDirectory() as made:
        folder = os.path.abspath(sys.argv[3] if len(sys.argv) > 3 else made)
        with open(os.path.join(TOP, "crates/lower_rows/src/tests/interpreter.rt"), encoding="utf-8") as file:
            files = {"src/main.rt": MAIN_RT, "src/interpreter.rt": file.read()}
        program = program_in(folder, "run_bench", CRATES, USES, files, b"int main(void){}")
        for _ in range(count):
            text = Maker(dice).source()
            given = bytes(dice.choice(b"ab\n") for _ in range(dice.randrange(6)))
            expected, put = gcc_run(made, text, given)
            found, output, trap = here_run(program, text, given)
            if expected is not None and (expected, put) != (found, output):
                sys.exit(f"{text}\non {given!r}: gcc {expected} {put!r}, here {trap} {found} {output!r}")
            kind = "out of turns" if found is None else trap or "status"
            tally[kind] = tally.get(kind, 0) + 1
    print(f"{count} runs agree: " + ", ".join(f"{n} {kind}" for kind, n in sorted(tally.items())))


main()
