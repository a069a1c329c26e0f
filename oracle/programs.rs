//! Random programs. A target is the place of an instruction in the list; `raw` makes one that is a byte's place instead.

use crate::random::Source;
use qvm::isa::{decode, Instr, OpCode};

pub const SLOTS: usize = 12;
/// Where the preload has preimages (8 bytes and a key each), and where programs have hashes written.
pub const PREIMAGES: [u64; 4] = [384, 424, 464, 504];
pub const OUTPUTS: [u64; 3] = [1024, 1056, 1088];
const EDGES: [u64; 6] = [65504, 65505, 65528, 65529, 65536, u64::MAX];
const MINT: u64 = 0x4D49_4E54;
const RAW: u32 = 1 << 24;

// r0 to r9 hold data, r10 to r12 places, r13 is 1, r14 and r15 count.
const PLACE: u8 = 10;
const LENGTH: u8 = 11;
const OUTPUT: u8 = 12;
const ONE: u8 = 13;
const COUNTER: u8 = 14;

pub fn raw(place: u32) -> u32 {
    RAW + place
}

pub fn three(op: OpCode, a: u8, b: u8, c: u8) -> Instr {
    decode(&[op as u8, a, b, c], 0).unwrap().0
}

pub fn ldi(d: u8, imm: u64) -> Instr {
    Instr::Ldi { d, imm }
}

fn target(instr: &mut Instr) -> Option<&mut u32> {
    match instr {
        Instr::Jmp { target } | Instr::Jz { target, .. } | Instr::Jnz { target, .. } | Instr::Call { target } => Some(target),
        _ => None,
    }
}

/// Whether a jump goes to a byte's place: such a program may run until its meter is out.
pub fn strays(code: &[Instr]) -> bool {
    code.iter().copied().any(|mut instr| target(&mut instr).is_some_and(|place| *place >= RAW))
}

/// Where a place in the list stands in the code.
pub fn offset(code: &[Instr], place: u32) -> u32 {
    if place >= RAW {
        return place - RAW;
    }
    code.iter().take(place as usize).map(|i| i.encoded_len() as u32).sum()
}

pub fn assembled(code: &[Instr]) -> Vec<u8> {
    let mut starts = vec![0];
    for instr in code {
        starts.push(starts[starts.len() - 1] + instr.encoded_len() as u32);
    }
    let mut out = Vec::new();
    for mut instr in code.iter().copied() {
        if let Some(place) = target(&mut instr) {
            *place = place.checked_sub(RAW).unwrap_or_else(|| starts[(*place as usize).min(code.len())]);
        }
        instr.encode(&mut out);
    }
    out
}

/// The list without one instruction; targets past it move.
pub fn without(code: &[Instr], at: usize) -> Vec<Instr> {
    let mut less = code.to_vec();
    less.remove(at);
    for place in less.iter_mut().filter_map(target) {
        if *place < RAW && *place as usize > at {
            *place -= 1;
        }
    }
    less
}

pub struct Writer<'a> {
    pub source: &'a mut Source,
    pub readable: Vec<u64>,
    pub writable: Vec<u64>,
    pub code: Vec<Instr>,
}

impl Writer<'_> {
    fn register(&mut self) -> u8 {
        self.source.below(10) as u8
    }

    fn push(&mut self, instr: Instr) {
        self.code.push(instr);
    }

    fn here(&self) -> u32 {
        self.code.len() as u32
    }

    /// One of these; once in a while another key, a made one or one at memory's edge.
    fn key(&mut self, mostly: &[u64]) -> u64 {
        match self.source.below(60) {
            0 => self.source.below(SLOTS) as u64 * 32,
            1 => self.source.pick(&EDGES),
            2 => self.source.pick(&OUTPUTS),
            _ if mostly.is_empty() => self.source.pick(&OUTPUTS),
            _ => self.source.pick(mostly),
        }
    }

    fn load(&mut self) {
        let (d, number) = (self.register(), self.source.number());
        let imm = self.source.pick(&[0, 1, 2, 5, 8, 40, 63, 64, 1000, number, number]);
        let constant = Instr::Ldc { d, idx: self.source.below(4) as u16 };
        let instr = if self.source.once_in(8) { constant } else { ldi(d, imm) };
        self.push(instr);
    }

    fn operation(&mut self) {
        use OpCode::*;
        let often = [AddW, SubW, MulW, MulHi, And, Or, Xor, Shl, Shr, Eq, LtU, GtU];
        let op = if self.source.once_in(20) { self.source.pick(&[Add, Sub, Mul, Div, Rem]) } else { self.source.pick(&often) };
        let (d, a, b) = (self.register(), self.register(), self.register());
        let instr = if self.source.once_in(12) { Instr::Not { d, a } } else { three(op, d, a, b) };
        self.push(instr);
    }

    fn wide(&mut self) {
        let divisor = if self.source.once_in(40) { 0 } else { 1 + self.source.number() / 2 };
        let [dlo, dhi, alo, ahi, bhi] = std::array::from_fn(|_| self.register());
        let bhi = if self.source.once_in(2) { bhi } else { OUTPUT };
        self.push(ldi(OUTPUT, divisor));
        let quotient = Instr::DivW { dlo, dhi, alo, ahi, blo: OUTPUT, bhi };
        let rest = Instr::RemW { dlo, dhi, alo, ahi, blo: OUTPUT, bhi };
        let instr = self.source.pick(&[quotient, rest]);
        self.push(instr);
    }

    fn word(&mut self) {
        let near = self.source.below(2000) as u64;
        let at = if self.source.once_in(30) { self.source.pick(&EDGES) } else { self.source.pick(&[0, 24, 65528, near]) };
        let d = self.register();
        self.push(ldi(PLACE, at));
        let instr = self.source.pick(&[Instr::MLoad { d, a: PLACE }, Instr::MStore { a: PLACE, b: d }]);
        self.push(instr);
    }

    fn reading(&mut self) {
        let (at, d) = (self.key(&self.readable.clone()), self.register());
        self.push(ldi(PLACE, at));
        self.push(Instr::SLoad { d, a: PLACE });
    }

    fn writing(&mut self) {
        let (at, b) = (self.key(&self.writable.clone()), self.register());
        self.push(ldi(PLACE, at));
        self.push(Instr::SStore { a: PLACE, b });
    }

    fn posting(&mut self) {
        let near = self.source.pick(&[PREIMAGES[0], PREIMAGES[1], OUTPUTS[0], OUTPUTS[1], 0]);
        let at = if self.source.once_in(60) { self.source.pick(&EDGES) } else { near };
        let length = self.source.pick(&[0, 1, 32, 32, 32, 39, 40, 40, 64, 300]);
        let amount = self.register();
        self.push(ldi(PLACE, at));
        self.push(ldi(LENGTH, length));
        if self.source.once_in(2) {
            return self.push(three(OpCode::Send, PLACE, LENGTH, amount));
        }
        let selector = if self.source.once_in(50) { 1 << 32 } else { self.source.pick(&[MINT, MINT, 1, 0xFFFF_FFFF]) };
        self.push(ldi(OUTPUT, selector));
        self.push(three(OpCode::Emit, PLACE, LENGTH, OUTPUT));
    }

    /// A hash, and a use of the key that it may have authorised.
    fn hashing(&mut self) {
        let (from, length, to, d) = (self.source.pick(&PREIMAGES), self.source.pick(&[8, 8, 40, 40, 7, 136]), self.source.pick(&OUTPUTS), self.register());
        let from = if self.source.once_in(40) { self.source.pick(&EDGES) } else { from };
        let to = if self.source.once_in(40) { self.source.pick(&EDGES) } else { to };
        self.code.extend([ldi(PLACE, from), ldi(LENGTH, length), ldi(OUTPUT, to)]);
        self.push(three(OpCode::Hash, PLACE, LENGTH, OUTPUT));
        let uses = [Instr::Nop, Instr::SLoad { d, a: OUTPUT }, Instr::SStore { a: OUTPUT, b: d }, Instr::SStore { a: OUTPUT, b: ONE }];
        let instr = self.source.pick(&uses);
        self.push(instr);
    }

    fn checking(&mut self) {
        use OpCode::*;
        let op = self.source.pick(&[VerifyMl, VerifySlh, MerkleVerify, Addr, Addr]);
        let number = self.source.number();
        let (length, c) = (self.source.pick(&[0, 72, 104, 5260, 5400, 7888, 8000, number]), self.register());
        self.push(ldi(LENGTH, length));
        self.push(three(op, PLACE, LENGTH, c));
    }

    fn stacking(&mut self, depth: usize) {
        let (a, d) = (self.register(), self.register());
        self.push(Instr::Push { a });
        self.statement(depth + 1);
        self.push(Instr::Pop { d });
    }

    fn skipping(&mut self, depth: usize) {
        let (at, a) = (self.code.len(), self.register());
        self.push(Instr::Nop);
        self.block(depth + 1);
        let target = if self.source.once_in(30) { raw(self.source.below(200) as u32) } else { self.here() };
        self.code[at] = self.source.pick(&[Instr::Jz { a, target }, Instr::Jnz { a, target }]);
        self.push(Instr::Nop);
    }

    fn repeating(&mut self, depth: usize) {
        let counter = COUNTER + depth as u8;
        let times = 1 + self.source.below(5) as u64;
        self.push(ldi(counter, times));
        let top = self.here();
        self.block(depth + 1);
        self.push(three(OpCode::SubW, counter, counter, ONE));
        self.push(Instr::Jnz { a: counter, target: top });
    }

    fn statement(&mut self, depth: usize) {
        match self.source.below(if depth < 2 { 20 } else { 16 }) {
            0 | 1 => self.load(),
            2..=4 => self.operation(),
            5 => self.wide(),
            6 => self.word(),
            7 | 8 => self.reading(),
            9 | 10 => self.writing(),
            11 | 12 => self.posting(),
            13 | 14 => self.hashing(),
            15 => self.checking(),
            16 => self.stacking(depth),
            17 => self.skipping(depth),
            18 => self.repeating(depth),
            _ => self.push(Instr::Call { target: 1 }),
        }
    }

    fn block(&mut self, depth: usize) {
        for _ in 0..1 + self.source.below(4) {
            self.statement(depth);
        }
    }

    /// A jump over a subroutine at place 1, then statements, then an end.
    pub fn structured(&mut self) {
        self.push(Instr::Nop);
        self.load();
        self.statement(2);
        self.push(Instr::Ret);
        self.code[0] = Instr::Jmp { target: self.here() };
        self.push(ldi(ONE, 1));
        for d in 0..4 {
            let imm = self.source.below(7) as u64;
            self.push(ldi(d, imm));
        }
        for _ in 0..2 + self.source.below(10) {
            self.statement(0);
        }
        if !self.source.once_in(12) {
            return self.push(Instr::Halt);
        }
        let target = raw(self.source.below(99) as u32);
        match self.source.below(4) {
            0 => self.push(Instr::Jmp { target }),
            1 => self.push(Instr::Ret),
            2 => self.push(Instr::Pop { d: 0 }),
            _ => {}
        }
    }

    /// Any instructions with any registers, jumps anywhere.
    pub fn wild(&mut self) {
        let length = 1 + self.source.below(30);
        while self.code.len() < length {
            let mut bytes: [u8; 10] = self.source.bytes();
            bytes[1..7].iter_mut().for_each(|b| *b %= 16);
            if let Ok((mut instr, _)) = decode(&bytes, 0) {
                if let Some(place) = target(&mut instr) {
                    *place = self.source.below(length + 1) as u32;
                }
                self.push(instr);
            }
        }
    }

    /// A call of itself, until the stack is full.
    pub fn endless(&mut self) {
        self.code = vec![Instr::Nop, Instr::Call { target: self.source.below(2) as u32 }];
    }

    /// Posts of long data until the total is full.
    pub fn long_posts(&mut self) {
        let length = self.source.pick(&[65504, 65000, 65536]);
        self.code = vec![ldi(LENGTH, length), three(OpCode::Send, 0, LENGTH, 0), Instr::Jmp { target: 1 }];
    }

    /// A store to each of the slots in turn, some of them zero, twice.
    pub fn many_stores(&mut self) {
        let value = self.source.below(2) as u64;
        let again = self.source.below(2) as u64;
        self.push(ldi(LENGTH, 32));
        for (round, value) in [value, again].into_iter().enumerate() {
            self.code.extend([ldi(1, value), ldi(PLACE, 0)]);
            for _ in 0..SLOTS - round {
                self.code.extend([Instr::SStore { a: PLACE, b: 1 }, three(OpCode::AddW, PLACE, PLACE, LENGTH)]);
            }
        }
        self.push(Instr::Halt);
    }
}
