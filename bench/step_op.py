#!/usr/bin/env python3
"""Times `step_op` beside a plain Rust loop over the same operations.

Usage: bench/step_op.py [FOLDER]   (default: a new temporary folder; with a FOLDER the scratch repository stays there)

Makes a scratch repository of int_ops, stack_ops and a program that does ten million operations over an OpStack and a RunIo, and
builds it with `rt run`, which proves it too. Beside it `rustc -O` compiles a plain Rust program with the same operations, the same
rounds and the same loop, whose numbers stand in a Vec and whose indices are tested as it runs. Both read the rounds from standard
input, so that no compiler knows them. Each figure is the best of nine runs, the programs taking turns, less the time of a run of no
rounds. The last line says whether the bound holds: at most 1.5 times the time of the plain loop.
"""
import os
import subprocess
import sys
import tempfile
import time

from scratch import program_in, write

RUNS = 9
BOUND = 1.5
STEPS_A_ROUND = 8
STEPS = 10_000_000

# Each round has four letters: what gives the first and the second number, what joins them, and what changes the one number. Between
# them the program puts Swap, Dup and Drop.
ROUNDS = """
pp*v lp+n gp-s cp<S pl>~ ll=- lg&o gp|x pg^v pp/n pp%s lp{S ppRm gg!- cl+o pp[-
lpAv gpM- ppSn cp+s pl-S gl*x lg<o pp>v ll&- gg|~ pp]s
""".split()

SPECS = """-- The shapes of the operations in a round.
use Rattle.std.specs.Prelude.{◌≡◌, ℕ, ℤ, List, length, All, IsTrue}
use Rattle.int_ops.specs.Ranges.{IsNumber}
use Rattle.stack_ops.specs.Stack.{StackValue}
use Rattle.stack_ops.specs.declared.operation.Op.{Op}
use Rattle.stack_ops.specs.Shapes.{is_step, takes, gives, HasCells, HasNumber}
use Rattle.step_bench.specs.declared.rounds.Round.{Round}

-- one step that takes and gives so many operands, over eight cells and eight globals
pub record Turns (o : Op) (taken given : ℕ) : Type 0 where
  pub step : IsTrue (is_step o)
  pub taken_is : takes o ≡ taken
  pub given_is : gives o ≡ given
  pub number : HasNumber o
  pub cells : (cells globals : List ℤ) → length cells ≡ 8 → length globals ≡ 8 → HasCells o cells globals

pub record IsRound (r : Round) : Type 0 where
  pub first : Turns r.first 0 1
  pub second : Turns r.second 0 1
  pub order : Turns r.order 2 2
  pub both : Turns r.both 2 1
  pub more : Turns r.more 1 2
  pub less : Turns r.less 1 0
  pub one : Turns r.one 1 1
  pub none : Turns r.none 1 0

-- no operands, room for four, and numbers alone
pub record IsReady (stack : StackValue) (cells globals : List ℤ) : Type 0 where
  pub empty : length stack.numbers ≡ 0
  pub room : stack.room ≡ 4
  pub stack_numbers : All IsNumber stack.numbers
  pub local_numbers : All IsNumber cells
  pub global_numbers : All IsNumber globals
"""

ROUNDS_RT = """//! Rounds of eight operations that leave the operands as they were.

ghost use Rattle.std.specs.Prelude.{◌≡◌, ◌+◌, ◌≤◌, length, All, IfOk, OnOk};
ghost use Rattle.int_ops.specs.Ranges.{IsNumber};
ghost use Rattle.step_bench.specs.Turns.{Turns, IsRound};

use int_ops::IntType;
use stack_ops::{Op, OpStack, RunIo, Trap, step_op};
use std::alloc::{AllocError, Global};

/// Eight operations, in this order.
#[derive(Clone, Copy)]
pub struct Round {
    pub first: Op,
    pub second: Op,
    pub order: Op,
    pub both: Op,
    pub more: Op,
    pub less: Op,
    pub one: Op,
    pub none: Op,
}

fn giver(letter: u8) -> Op
    ensures { Turns result 0 1 }
{
    match letter {
        b'l' => Op::LoadLocal(2),
        b'g' => Op::LoadGlobal(1),
        b'c' => Op::GetChar,
        _ => Op::Push(3),
    }
}

fn arithmetic(letter: u8) -> Op
    ensures { Turns result 2 1 }
{
    match letter {
        b'*' => Op::Mul(IntType::Int, 1),
        b'/' => Op::Div(IntType::Int, 2),
        b'%' => Op::Rem(IntType::Int, 3),
        b'+' => Op::Add(IntType::Int, 4),
        b'-' => Op::Sub(IntType::Int, 5),
        b'{' => Op::Shl(IntType::Int, 6),
        b'R' => Op::Shr(IntType::Int, 7),
        b'A' => Op::Add(IntType::UnsignedChar, 8),
        b'M' => Op::Mul(IntType::UnsignedLong, 9),
        _ => Op::Sub(IntType::Long, 10),
    }
}

fn joiner(letter: u8) -> Op
    ensures { Turns result 2 1 }
{
    match letter {
        b'<' => Op::Less(IntType::Int, 11),
        b'>' => Op::Greater(IntType::Int, 12),
        b'[' => Op::StoreLocalAt(0, 8),
        b']' => Op::StoreGlobalAt(0, 8),
        b'=' => Op::Equal(IntType::Int, 13),
        b'!' => Op::NotEqual(IntType::Int, 14),
        b'&' => Op::And(IntType::Int, 15),
        b'^' => Op::Xor(IntType::Int, 16),
        b'|' => Op::Or(IntType::Int, 17),
        _ => arithmetic(letter),
    }
}

fn changer(letter: u8) -> Op
    ensures { Turns result 1 1 }
{
    match letter {
        b'v' => Op::Convert(IntType::Short),
        b'n' => Op::Not,
        b's' => Op::StoreLocal(5),
        b'S' => Op::StoreGlobal(6),
        b'x' => Op::CheckIndex(1000, 18),
        b'm' => Op::LoadLocalAt(0, 8),
        b'-' => Op::Minus(IntType::Int, 19),
        b'~' => Op::Complement(IntType::Int, 20),
        b'o' => Op::PutChar(21),
        _ => Op::Convert(IntType::Long),
    }
}

fn round_of(letters: &[u8; 4]) -> Round
    ensures { IsRound result }
{
    Round {
        first: giver(letters[0]),
        second: giver(letters[1]),
        order: Op::Swap,
        both: joiner(letters[2]),
        more: Op::Dup,
        less: Op::Drop,
        one: changer(letters[3]),
        none: Op::Drop,
    }
}

/// The rounds of these letters, four each.
pub fn rounds(alloc: Global, text: &[[u8; 4]]) -> Result<Vec<Round>, AllocError>
    ensures { IfOk result (λ all. All IsRound all.items) }
{
    let mut all = Vec::new(alloc);
    for letters in text {
        all.push(round_of(letters))?;
    }
    Ok(all)
}

/// One round.
pub fn go(
    r: &Round,
    stack: &mut OpStack,
    locals: &mut [i128],
    globals: &mut [i128],
    io: &mut RunIo,
) -> Result<(), (Trap, u32)>
    requires round { IsRound r.now }
    requires empty { length stack.old.numbers ≡ 0 }
    requires room { stack.old.room ≡ 4 }
    requires cells { length locals.old ≡ 8 }
    requires more { length globals.old ≡ 8 }
    requires stack_numbers { All IsNumber stack.old.numbers }
    requires local_numbers { All IsNumber locals.old }
    requires global_numbers { All IsNumber globals.old }
    ensures empty { OnOk result (length stack.new.numbers ≡ 0) }
    ensures room { stack.new.room ≡ 4 }
    ensures stack_numbers { All IsNumber stack.new.numbers }
    ensures local_numbers { All IsNumber locals.new }
    ensures global_numbers { All IsNumber globals.new }
{
    step_op(&r.first, stack, locals, globals, io)?;
    step_op(&r.second, stack, locals, globals, io)?;
    step_op(&r.order, stack, locals, globals, io)?;
    step_op(&r.both, stack, locals, globals, io)?;
    step_op(&r.more, stack, locals, globals, io)?;
    step_op(&r.less, stack, locals, globals, io)?;
    step_op(&r.one, stack, locals, globals, io)?;
    step_op(&r.none, stack, locals, globals, io)
}
"""

MAIN_RT = """//! Rounds of operations, as many times as the first word of the input says.
#![tactic(auto)]

ghost use Rattle.std.specs.Prelude.{◌≡◌, ◌≤◌, length, All};
ghost use Rattle.int_ops.specs.Ranges.{IsNumber};
ghost use Rattle.step_bench.specs.Turns.{IsRound};

mod rounds;

use rounds::{Round, go, rounds};
use stack_ops::{OpStack, RunIo, Trap};
use std::alloc::Global;
use std::io;

/// All rounds so many times; tells whether none trapped, and a cell.
fn repeat(all: &[Round], times: u32, stack: &mut OpStack, io: &mut RunIo) -> Result<i128, (Trap, u32)>
    requires rounds { All IsRound all.now }
    requires empty { length stack.old.numbers ≡ 0 }
    requires room { stack.old.room ≡ 4 }
    requires numbers { All IsNumber stack.old.numbers }
{
    let mut locals = [0; 8];
    let mut globals = [0; 8];
    for _ in 0..times {
        for r in all {
            go(r, stack, &mut locals, &mut globals, io)?;
        }
        io.clear();
    }
    Ok(locals[5])
}

fn letters(alloc: Global, words: &[&str]) -> Result<Vec<[u8; 4]>, io::Error> {
    let mut all = Vec::new(alloc);
    for word in words {
        if let [a, b, c, d] = word.as_bytes() {
            all.push([*a, *b, *c, *d])?;
        }
    }
    Ok(all)
}

fn main(rt: HostRuntime) -> io::Result<()> {
    let text = io::read_to_string(rt.alloc(), rt.stdin())?;
    let words: Vec<&str> = text.split_whitespace().collect(rt.alloc())?;
    let times = words.first().and_then(|word| word.parse::<u32>().ok()).unwrap_or(0);
    let all = rounds(rt.alloc(), &letters(rt.alloc(), &words)?)?;
    let Ok(mut stack) = OpStack::with_room(rt.alloc(), 4) else {
        return println!(rt; "no memory");
    };
    let Ok(mut io) = RunIo::new(rt.alloc(), 1000) else {
        return println!(rt; "no memory");
    };
    match repeat(&all, times, &mut stack, &mut io) {
        Ok(n) => println!(rt; "{n}"),
        Err((trap, line)) => println!(rt; "{trap:?} at {line}"),
    }
}
"""

# What is written of the proofs of the program.
PROOFS = {
    "repeat/Invariants.antt": """use Rattle.std.proofs.Common.{All}
use Rattle.int_ops.specs.Ranges.{IsNumber}
use Rattle.step_bench.specs.Turns.{IsReady}
use Rattle.step_bench.proofs.repeat.Given as goal

abbrev pub invariant-loop-r : goal.invariant-loop-r
invariant-loop-r l = IsReady l.stack l.locals l.globals

abbrev pub invariant-loop : goal.invariant-loop
invariant-loop l = IsReady l.stack l.locals l.globals
""",
    "rounds/rounds/Invariants.antt": """use Rattle.std.proofs.Common.{All}
use Rattle.step_bench.specs.Turns.{IsRound}
use Rattle.step_bench.proofs.rounds.rounds.Given as goal

abbrev pub invariant-loop-letters : goal.invariant-loop-letters
invariant-loop-letters l = All IsRound l.all.items
""",
    "rounds/rounds/Answers.antt": """use Rattle.std.proofs.lemmas.List.Elements.{All-push}
use Rattle.step_bench.specs.Turns.{IsRound}
use Rattle.step_bench.proofs.rounds.rounds.Goals as goal

pub loop-letters-preserved : goal.loop-letters-preserved
loop-letters-preserved c =
    rw c.in_ok-push.ensures.items (All-push IsRound c.loop-letters.all.items c.round_of.result c.loop-letters.invariant c.round_of.ensures)
""",
}

PLAIN_RS = r"""
use std::io::Read;

#[derive(Clone, Copy, Debug)]
enum IntType { Bool, Char, SignedChar, UnsignedChar, Short, UnsignedShort, Int, UnsignedInt, Long, UnsignedLong }
use IntType::*;

#[derive(Clone, Copy, Debug)]
enum BinOp { Mul, Div, Rem, Add, Sub, Shl, Shr, Less, Greater, LessEqual, GreaterEqual, Equal, NotEqual, And, Xor, Or }

#[derive(Clone, Copy, Debug)]
enum UnOp { Minus, Complement }

#[derive(Clone, Copy, Debug)]
enum Trap { Overflow, DivideByZero, ShiftRange, BadIndex, CallDepth, OutputLimit }

#[derive(Clone, Copy, Debug)]
enum Op {
    Push(i128), Dup, Drop, Swap, Over, Convert(IntType), Not, LoadLocal(u32), StoreLocal(u32), LoadGlobal(u32), StoreGlobal(u32),
    CheckIndex(u32, u32), LoadLocalAt(u32, u32), StoreLocalAt(u32, u32), LoadGlobalAt(u32, u32), StoreGlobalAt(u32, u32),
    Mul(IntType, u32), Div(IntType, u32), Rem(IntType, u32), Add(IntType, u32), Sub(IntType, u32), Shl(IntType, u32),
    Shr(IntType, u32), Less(IntType, u32), Greater(IntType, u32), LessEqual(IntType, u32), GreaterEqual(IntType, u32),
    Equal(IntType, u32), NotEqual(IntType, u32), And(IntType, u32), Xor(IntType, u32), Or(IntType, u32), Minus(IntType, u32),
    Complement(IntType, u32), GetChar, PutChar(u32), Jump(u32), Back(u32), IfZero(u32), IfNot(u32), CaseJump(i128, u32),
    Call(u32, u32), Return, Exit, Count(u32), PathBegin, PathPass(u32),
}

struct RunIo { input: Vec<u8>, place: usize, output: Vec<u8>, limit: u32 }

fn convert(t: IntType, n: i128) -> i128 {
    match t {
        Bool => (n != 0) as i128,
        Char | SignedChar => n as i8 as i128,
        UnsignedChar => n as u8 as i128,
        Short => n as i16 as i128,
        UnsignedShort => n as u16 as i128,
        Int => n as i32 as i128,
        UnsignedInt => n as u32 as i128,
        Long => n as i64 as i128,
        UnsignedLong => n as u64 as i128,
    }
}

fn has_sign(t: IntType) -> bool {
    matches!(t, Char | SignedChar | Short | Int | Long)
}

fn width_of(t: IntType) -> i128 {
    match t {
        Bool => 1,
        Char | SignedChar | UnsignedChar => 8,
        Short | UnsignedShort => 16,
        Int | UnsignedInt => 32,
        Long | UnsignedLong => 64,
    }
}

fn settle(t: IntType, n: i128) -> Result<i128, Trap> {
    if has_sign(t) && convert(t, n) != n { Err(Trap::Overflow) } else { Ok(convert(t, n)) }
}

fn binary(op: BinOp, t: IntType, a: i128, right: i128) -> Result<i128, Trap> {
    let (a, b) = (convert(t, a), convert(t, right));
    match op {
        BinOp::Mul => settle(t, a.wrapping_mul(b)),
        BinOp::Add => settle(t, a + b),
        BinOp::Sub => settle(t, a - b),
        BinOp::Div if b == 0 => Err(Trap::DivideByZero),
        BinOp::Div => settle(t, a / b),
        BinOp::Rem if b == 0 => Err(Trap::DivideByZero),
        BinOp::Rem => settle(t, a / b).and(settle(t, a % b)),
        BinOp::Shl | BinOp::Shr if right < 0 || right >= width_of(t) => Err(Trap::ShiftRange),
        BinOp::Shl if a < 0 => Err(Trap::Overflow),
        BinOp::Shl => settle(t, a << right),
        BinOp::Shr => settle(t, a >> right),
        BinOp::Less => Ok((a < b) as i128),
        BinOp::Greater => Ok((a > b) as i128),
        BinOp::LessEqual => Ok((a <= b) as i128),
        BinOp::GreaterEqual => Ok((a >= b) as i128),
        BinOp::Equal => Ok((a == b) as i128),
        BinOp::NotEqual => Ok((a != b) as i128),
        BinOp::And => settle(t, a & b),
        BinOp::Xor => settle(t, a ^ b),
        BinOp::Or => settle(t, a | b),
    }
}

fn unary(op: UnOp, t: IntType, a: i128) -> Result<i128, Trap> {
    match op {
        UnOp::Minus => settle(t, -convert(t, a)),
        UnOp::Complement => settle(t, !convert(t, a)),
    }
}

fn element(base: u32, size: u32, i: i128) -> Option<usize> {
    if i < 0 || i >= size as i128 { None } else { Some(base as usize + i as usize) }
}

fn join(op: BinOp, t: IntType, line: u32, stack: &mut Vec<i128>) -> Result<(), (Trap, u32)> {
    let b = stack.pop().unwrap();
    let a = stack.pop().unwrap();
    stack.push(binary(op, t, a, b).map_err(|trap| (trap, line))?);
    Ok(())
}

fn step_op(
    op: &Op,
    stack: &mut Vec<i128>,
    locals: &mut [i128],
    globals: &mut [i128],
    io: &mut RunIo,
) -> Result<(), (Trap, u32)> {
    macro_rules! by_operator {
        ($($name:ident)*; $($given:pat => $does:expr,)*) => {
            match *op {
                $($given => $does,)*
                $(Op::$name(t, line) => join(BinOp::$name, t, line, stack)?,)*
                _ => unreachable!(),
            }
        };
    }
    by_operator!(
        Mul Div Rem Add Sub Shl Shr Less Greater LessEqual GreaterEqual Equal NotEqual And Xor Or;
        Op::Push(n) => stack.push(n),
        Op::Dup => {
            let a = *stack.last().unwrap();
            stack.push(a);
        },
        Op::Drop => {
            stack.pop().unwrap();
        },
        Op::Swap => {
            let top = stack.len() - 1;
            stack.swap(top, top - 1);
        },
        Op::Over => {
            let a = stack[stack.len() - 2];
            stack.push(a);
        },
        Op::Convert(t) => {
            let a = stack.pop().unwrap();
            stack.push(convert(t, a));
        },
        Op::Not => {
            let a = stack.pop().unwrap();
            stack.push((a == 0) as i128);
        },
        Op::LoadLocal(w) => stack.push(locals[w as usize]),
        Op::StoreLocal(w) => locals[w as usize] = *stack.last().unwrap(),
        Op::LoadGlobal(w) => stack.push(globals[w as usize]),
        Op::StoreGlobal(w) => globals[w as usize] = *stack.last().unwrap(),
        Op::CheckIndex(size, line) => {
            element(0, size, *stack.last().unwrap()).ok_or((Trap::BadIndex, line))?;
        },
        Op::LoadLocalAt(base, size) => {
            let i = stack.pop().unwrap();
            stack.push(locals[element(base, size, i).ok_or((Trap::BadIndex, 0))?]);
        },
        Op::StoreLocalAt(base, size) => {
            let a = stack.pop().unwrap();
            let i = stack.pop().unwrap();
            locals[element(base, size, i).ok_or((Trap::BadIndex, 0))?] = a;
            stack.push(a);
        },
        Op::LoadGlobalAt(base, size) => {
            let i = stack.pop().unwrap();
            stack.push(globals[element(base, size, i).ok_or((Trap::BadIndex, 0))?]);
        },
        Op::StoreGlobalAt(base, size) => {
            let a = stack.pop().unwrap();
            let i = stack.pop().unwrap();
            globals[element(base, size, i).ok_or((Trap::BadIndex, 0))?] = a;
            stack.push(a);
        },
        Op::Minus(t, line) => {
            let a = stack.pop().unwrap();
            stack.push(unary(UnOp::Minus, t, a).map_err(|trap| (trap, line))?);
        },
        Op::Complement(t, line) => {
            let a = stack.pop().unwrap();
            stack.push(unary(UnOp::Complement, t, a).map_err(|trap| (trap, line))?);
        },
        Op::GetChar => match io.input.get(io.place) {
            Some(byte) => {
                io.place += 1;
                stack.push(*byte as i128);
            }
            None => stack.push(-1),
        },
        Op::PutChar(line) => {
            if io.output.len() >= io.limit as usize {
                return Err((Trap::OutputLimit, line));
            }
            let byte = stack.pop().unwrap() as u8;
            io.output.push(byte);
            stack.push(byte as i128);
        },
    );
    Ok(())
}

#[derive(Clone, Copy)]
struct Round { first: Op, second: Op, order: Op, both: Op, more: Op, less: Op, one: Op, none: Op }

fn giver(letter: u8) -> Op {
    match letter {
        b'l' => Op::LoadLocal(2),
        b'g' => Op::LoadGlobal(1),
        b'c' => Op::GetChar,
        _ => Op::Push(3),
    }
}

fn joiner(letter: u8) -> Op {
    match letter {
        b'*' => Op::Mul(Int, 1),
        b'/' => Op::Div(Int, 2),
        b'%' => Op::Rem(Int, 3),
        b'+' => Op::Add(Int, 4),
        b'-' => Op::Sub(Int, 5),
        b'{' => Op::Shl(Int, 6),
        b'R' => Op::Shr(Int, 7),
        b'A' => Op::Add(UnsignedChar, 8),
        b'M' => Op::Mul(UnsignedLong, 9),
        b'<' => Op::Less(Int, 11),
        b'>' => Op::Greater(Int, 12),
        b'[' => Op::StoreLocalAt(0, 8),
        b']' => Op::StoreGlobalAt(0, 8),
        b'=' => Op::Equal(Int, 13),
        b'!' => Op::NotEqual(Int, 14),
        b'&' => Op::And(Int, 15),
        b'^' => Op::Xor(Int, 16),
        b'|' => Op::Or(Int, 17),
        _ => Op::Sub(Long, 10),
    }
}

fn changer(letter: u8) -> Op {
    match letter {
        b'v' => Op::Convert(Short),
        b'n' => Op::Not,
        b's' => Op::StoreLocal(5),
        b'S' => Op::StoreGlobal(6),
        b'x' => Op::CheckIndex(1000, 18),
        b'm' => Op::LoadLocalAt(0, 8),
        b'-' => Op::Minus(Int, 19),
        b'~' => Op::Complement(Int, 20),
        b'o' => Op::PutChar(21),
        _ => Op::Convert(Long),
    }
}

fn go(
    r: &Round,
    stack: &mut Vec<i128>,
    locals: &mut [i128],
    globals: &mut [i128],
    io: &mut RunIo,
) -> Result<(), (Trap, u32)> {
    step_op(&r.first, stack, locals, globals, io)?;
    step_op(&r.second, stack, locals, globals, io)?;
    step_op(&r.order, stack, locals, globals, io)?;
    step_op(&r.both, stack, locals, globals, io)?;
    step_op(&r.more, stack, locals, globals, io)?;
    step_op(&r.less, stack, locals, globals, io)?;
    step_op(&r.one, stack, locals, globals, io)?;
    step_op(&r.none, stack, locals, globals, io)
}

fn repeat(all: &[Round], times: u32, stack: &mut Vec<i128>, io: &mut RunIo) -> Result<i128, (Trap, u32)> {
    let mut locals = [0; 8];
    let mut globals = [0; 8];
    for _ in 0..times {
        for r in all {
            go(r, stack, &mut locals, &mut globals, io)?;
        }
        io.output.clear();
    }
    Ok(locals[5])
}

fn main() {
    let mut text = String::new();
    std::io::stdin().read_to_string(&mut text).unwrap();
    let words: Vec<&str> = text.split_whitespace().collect();
    let times = words[0].parse().unwrap();
    let all: Vec<Round> = words[1..]
        .iter()
        .map(|word| {
            let [a, b, c, d] = *word.as_bytes() else { panic!() };
            Round {
                first: giver(a),
                second: giver(b),
                order: Op::Swap,
                both: joiner(c),
                more: Op::Dup,
                less: Op::Drop,
                one: changer(d),
                none: Op::Drop,
            }
        })
        .collect();
    let mut io = RunIo { input: Vec::new(), place: 0, output: Vec::with_capacity(1000), limit: 1000 };
    match repeat(&all, times, &mut Vec::with_capacity(4), &mut io) {
        Ok(n) => println!("{n}"),
        Err((trap, line)) => println!("{trap:?} at {line}"),
    }
}
"""


def input_of(times):
    return f"{times}\n{chr(10).join(ROUNDS)}\n".encode()


def proved_program(folder):
    """Builds the program over `step_op`, and gives its path."""
    files = {"src/main.rt": MAIN_RT, "src/rounds.rt": ROUNDS_RT, "specs/Lib.antt": "pub mod Turns\n", "specs/Turns.antt": SPECS}
    files.update((os.path.join("proofs", name), text) for name, text in PROOFS.items())
    return program_in(folder, "step_bench", ("cov_base", "int_ops", "stack_ops"), "int_ops stack_ops", files, input_of(0))


def plain_program(folder):
    write(folder, "plain.rs", PLAIN_RS)
    subprocess.run(["rustc", "-O", "-A", "warnings", "-o", "plain", "plain.rs"], cwd=folder, check=True)
    return os.path.join(folder, "plain")


def run(program, times):
    """The seconds of one run, and what it wrote."""
    start = time.perf_counter()
    done = subprocess.run([program], input=input_of(times), capture_output=True, check=True)
    return time.perf_counter() - start, done.stdout


def main():
    keep = sys.argv[1] if len(sys.argv) > 1 else None
    with tempfile.TemporaryDirectory() as made:
        folder = os.path.abspath(keep or made)
        programs = [proved_program(folder), plain_program(folder)]
        times = STEPS // (STEPS_A_ROUND * len(ROUNDS)) + 1
        steps = times * STEPS_A_ROUND * len(ROUNDS)
        full, empty = [[], []], [[], []]
        for _ in range(RUNS):
            for i, program in enumerate(programs):
                full[i].append(run(program, times))
                empty[i].append(run(program, 0)[0])
        answers = {wrote for runs in full for _, wrote in runs}
        if len(answers) != 1 or b"at" in answers.pop():
            sys.exit("the programs' answers differ, or one trapped")
        seconds = [min(second for second, _ in full[i]) - min(empty[i]) for i in range(2)]
        for name, taken in zip(("step_op", "plain loop"), seconds):
            print(f"{name:>10}: {steps} operations in {taken:.3f} s, {steps / taken / 1e6:.1f} million a second")
        ratio = seconds[0] / seconds[1]
        print(f"step_op takes {ratio:.2f} times the plain loop's time; the bound of {BOUND} {'holds' if ratio <= BOUND else 'does not hold'}")
        sys.exit(0 if ratio <= BOUND else 1)


main()
