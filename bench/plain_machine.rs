//! A plain stack machine over the operations of cov's code, on 128-bit numbers: the yardstick of bench/machine.py.
//! It reads the code file that its argument names and standard input, runs, and ends with the program's status; a trap ends it with 121.
use std::env;
use std::fs;
use std::io::{self, Read, Write};
use std::process::exit;

#[derive(Clone, Copy)]
enum Op {
    Push(i128),
    Dup,
    Drop,
    Swap,
    Over,
    Convert(u8),
    Not,
    LoadLocal(u32),
    StoreLocal(u32),
    LoadGlobal(u32),
    StoreGlobal(u32),
    CheckIndex(u32),
    LoadLocalAt(u32, u32),
    StoreLocalAt(u32, u32),
    LoadGlobalAt(u32, u32),
    StoreGlobalAt(u32, u32),
    Binary(u8, u8),
    Minus(u8),
    Complement(u8),
    GetChar,
    PutChar,
    Jump(u32),
    Back(u32),
    IfZero(u32),
    IfNot(u32),
    CaseJump(i128, u32),
    Call(u32),
    Return,
    Exit,
}

struct Function {
    params: usize,
    cells: usize,
    gives: bool,
    ops: Vec<Op>,
}

struct Reader {
    bytes: Vec<u8>,
    at: usize,
}

impl Reader {
    fn byte(&mut self) -> u8 {
        self.at += 1;
        self.bytes[self.at - 1]
    }

    fn word(&mut self) -> u32 {
        self.at += 4;
        u32::from_le_bytes(self.bytes[self.at - 4..self.at].try_into().unwrap())
    }

    fn number(&mut self) -> i128 {
        let mark = self.byte();
        self.at += 8;
        let bytes: [u8; 8] = self.bytes[self.at - 8..self.at].try_into().unwrap();
        if mark == 0 { i128::from(i64::from_le_bytes(bytes)) } else { i128::from(u64::from_le_bytes(bytes)) }
    }

    fn op(&mut self) -> Op {
        let code = self.byte();
        match code {
            0 => Op::Push(self.number()),
            1 => Op::Dup,
            2 => Op::Drop,
            3 => Op::Swap,
            4 => Op::Over,
            5 => Op::Convert(self.byte()),
            6 => Op::Not,
            7 => Op::LoadLocal(self.word()),
            8 => Op::StoreLocal(self.word()),
            9 => Op::LoadGlobal(self.word()),
            10 => Op::StoreGlobal(self.word()),
            11 => {
                let length = self.word();
                self.word();
                Op::CheckIndex(length)
            }
            12 => Op::LoadLocalAt(self.word(), self.word()),
            13 => Op::StoreLocalAt(self.word(), self.word()),
            14 => Op::LoadGlobalAt(self.word(), self.word()),
            15 => Op::StoreGlobalAt(self.word(), self.word()),
            16..=31 => {
                let kind = self.byte();
                self.word();
                Op::Binary(code - 16, kind)
            }
            32 | 33 => {
                let kind = self.byte();
                self.word();
                if code == 32 { Op::Minus(kind) } else { Op::Complement(kind) }
            }
            34 => Op::GetChar,
            35 => {
                self.word();
                Op::PutChar
            }
            36 => Op::Jump(self.word()),
            37 => Op::Back(self.word()),
            38 => Op::IfZero(self.word()),
            39 => Op::IfNot(self.word()),
            40 => Op::CaseJump(self.number(), self.word()),
            41 => {
                let function = self.word();
                self.word();
                Op::Call(function)
            }
            42 => Op::Return,
            43 => Op::Exit,
            _ => panic!("a counting operation"),
        }
    }
}

fn trap() -> ! {
    exit(121)
}

const BITS: [u32; 10] = [1, 8, 8, 8, 16, 16, 32, 32, 64, 64];

fn is_signed(kind: u8) -> bool {
    matches!(kind, 1 | 2 | 4 | 6 | 8)
}

fn convert(kind: u8, n: i128) -> i128 {
    match kind {
        0 => i128::from(n != 0),
        1 | 2 => i128::from(n as i8),
        3 => i128::from(n as u8),
        4 => i128::from(n as i16),
        5 => i128::from(n as u16),
        6 => i128::from(n as i32),
        7 => i128::from(n as u32),
        8 => i128::from(n as i64),
        _ => i128::from(n as u64),
    }
}

fn held(kind: u8, n: i128) -> i128 {
    let kept = convert(kind, n);
    if kept != n && is_signed(kind) {
        trap()
    }
    kept
}

fn binary(op: u8, kind: u8, a: i128, b: i128) -> i128 {
    let bits = BITS[kind as usize];
    let a = convert(kind, a);
    if op == 5 || op == 6 {
        if b < 0 || b >= i128::from(bits) {
            trap()
        }
        if op == 6 {
            return a >> b;
        }
        if is_signed(kind) && a < 0 {
            trap()
        }
        return held(kind, a << b);
    }
    let b = convert(kind, b);
    match op {
        0 => held(kind, a * b),
        1 | 2 => {
            if b == 0 {
                trap()
            }
            let quotient = held(kind, a / b);
            if op == 1 { quotient } else { a % b }
        }
        3 => held(kind, a + b),
        4 => held(kind, a - b),
        7 => i128::from(a < b),
        8 => i128::from(a > b),
        9 => i128::from(a <= b),
        10 => i128::from(a >= b),
        11 => i128::from(a == b),
        12 => i128::from(a != b),
        13 => a & b,
        14 => a ^ b,
        _ => a | b,
    }
}

struct Code {
    main: usize,
    globals: Vec<i128>,
    functions: Vec<Function>,
}

fn read_code(bytes: Vec<u8>) -> Code {
    let mut reader = Reader { bytes, at: 16 };
    let main = reader.word() as usize;
    let count = reader.word();
    let globals = (0..count).map(|_| reader.number()).collect();
    let count = reader.word();
    let functions = (0..count)
        .map(|_| {
            let params = reader.word() as usize;
            let cells = reader.word() as usize;
            reader.word();
            let gives = reader.word() != 0;
            reader.at += 16;
            let size = reader.word();
            let ops = (0..size).map(|_| reader.op()).collect();
            Function { params, cells, gives, ops }
        })
        .collect();
    Code { main, globals, functions }
}

fn element(index: i128, length: u32) -> usize {
    if index < 0 || index >= i128::from(length) {
        trap()
    }
    index as usize
}

fn run(code: &Code, input: &[u8], mut turns: u64) -> u8 {
    let mut globals = code.globals.clone();
    let mut output = Vec::new();
    let mut stack: Vec<i128> = Vec::with_capacity(1 << 16);
    let mut cells = vec![0i128; code.functions[code.main].cells];
    let mut base = 0;
    let mut frames: Vec<(usize, usize, usize)> = Vec::new();
    let (mut function, mut at, mut taken) = (code.main, 0, 0);
    let status = loop {
        let op = code.functions[function].ops[at];
        at += 1;
        match op {
            Op::Push(n) => stack.push(n),
            Op::Dup => stack.push(stack[stack.len() - 1]),
            Op::Drop => {
                stack.pop();
            }
            Op::Swap => {
                let top = stack.len() - 1;
                stack.swap(top, top - 1);
            }
            Op::Over => stack.push(stack[stack.len() - 2]),
            Op::Convert(kind) => {
                let n = stack.pop().unwrap();
                stack.push(convert(kind, n));
            }
            Op::Not => {
                let n = stack.pop().unwrap();
                stack.push(i128::from(n == 0));
            }
            Op::LoadLocal(cell) => stack.push(cells[base + cell as usize]),
            Op::StoreLocal(cell) => cells[base + cell as usize] = stack[stack.len() - 1],
            Op::LoadGlobal(cell) => stack.push(globals[cell as usize]),
            Op::StoreGlobal(cell) => globals[cell as usize] = stack[stack.len() - 1],
            Op::CheckIndex(length) => {
                element(stack[stack.len() - 1], length);
            }
            Op::LoadLocalAt(cell, length) => {
                let k = element(stack.pop().unwrap(), length);
                stack.push(cells[base + cell as usize + k]);
            }
            Op::StoreLocalAt(cell, length) => {
                let n = stack.pop().unwrap();
                let k = element(stack.pop().unwrap(), length);
                cells[base + cell as usize + k] = n;
                stack.push(n);
            }
            Op::LoadGlobalAt(cell, length) => {
                let k = element(stack.pop().unwrap(), length);
                stack.push(globals[cell as usize + k]);
            }
            Op::StoreGlobalAt(cell, length) => {
                let n = stack.pop().unwrap();
                let k = element(stack.pop().unwrap(), length);
                globals[cell as usize + k] = n;
                stack.push(n);
            }
            Op::Binary(joint, kind) => {
                let b = stack.pop().unwrap();
                let a = stack.pop().unwrap();
                stack.push(binary(joint, kind, a, b));
            }
            Op::Minus(kind) => {
                let n = stack.pop().unwrap();
                stack.push(held(kind, -convert(kind, n)));
            }
            Op::Complement(kind) => {
                let n = stack.pop().unwrap();
                stack.push(convert(kind, !convert(kind, n)));
            }
            Op::GetChar => {
                stack.push(input.get(taken).map_or(-1, |byte| i128::from(*byte)));
                taken += usize::from(taken < input.len());
            }
            Op::PutChar => {
                let n = stack.pop().unwrap();
                if output.len() == 16_777_216 {
                    trap()
                }
                output.push(n as u8);
                stack.push(i128::from(n as u8));
            }
            Op::Jump(to) => at = to as usize,
            Op::Back(to) => {
                if turns == 0 {
                    exit(122)
                }
                turns -= 1;
                at = to as usize;
            }
            Op::IfZero(to) => {
                if stack.pop().unwrap() == 0 {
                    at = to as usize;
                }
            }
            Op::IfNot(to) => {
                if stack.pop().unwrap() != 0 {
                    at = to as usize;
                }
            }
            Op::CaseJump(n, to) => {
                if stack[stack.len() - 1] == n {
                    stack.pop();
                    at = to as usize;
                }
            }
            Op::Call(callee) => {
                if turns == 0 {
                    exit(122)
                }
                turns -= 1;
                if frames.len() == 1999 {
                    trap()
                }
                frames.push((function, at, base));
                base = cells.len();
                function = callee as usize;
                at = 0;
                let called = &code.functions[function];
                let from = stack.len() - called.params;
                cells.extend(stack.drain(from..));
                cells.resize(base + called.cells, 0);
            }
            Op::Return => match frames.pop() {
                None => break stack.pop().unwrap() as u8,
                Some((caller, back, below)) => {
                    let _ = code.functions[function].gives;
                    cells.truncate(base);
                    function = caller;
                    at = back;
                    base = below;
                }
            },
            Op::Exit => break stack.pop().unwrap() as u8,
        }
    };
    io::stdout().write_all(&output).unwrap();
    status
}

fn main() {
    let name = env::args().nth(1).expect("a code file");
    let code = read_code(fs::read(name).expect("a code file that is there"));
    let mut input = Vec::new();
    io::stdin().read_to_end(&mut input).unwrap();
    exit(i32::from(run(&code, &input, 1_000_000_000)));
}
