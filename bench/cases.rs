//! What is measured: calls by name, each with its program.

use crate::demo;
use crate::judge::{Call, BUFFERS, FIXED};
use crate::programs::{assembled, ldi, three};
use qvm::container::{Container, Entry, StateAccess};
use qvm::isa::{Instr, OpCode};

const LIMIT: u64 = 1 << 40;
const ONE: u8 = 15;
const COUNTER: u8 = 14;

/// A body so many times, after some instructions.
fn repeated(times: u64, before: &[Instr], body: &[Instr]) -> Vec<Instr> {
    let mut code = [&[ldi(ONE, 1), ldi(COUNTER, times)], before].concat();
    let target = code.len() as u32;
    code.extend_from_slice(body);
    code.extend([three(OpCode::Sub, COUNTER, COUNTER, ONE), Instr::Jnz { a: COUNTER, target }, Instr::Halt]);
    code
}

/// Rooms for so many keys, and for as many records of 32 bytes: all that is lent is zeroed twice in a call.
fn rooms(n: usize) -> [usize; BUFFERS] {
    [FIXED[0], FIXED[1], FIXED[2], n * 40, n * 40, n * 32, n * 32, n * 32, n * 45]
}

fn call(code: Vec<u8>, access: StateAccess) -> Call {
    let entry = Entry { selector: *b"abcd", offset: 0, access };
    Call {
        genesis: false,
        selector: *b"abcd",
        limit: LIMIT,
        present: false,
        sizes: rooms(16),
        container: Container::new(code, vec![], vec![entry]).canonical_bytes(),
        store: vec![],
        loader: vec![],
        replies: vec![],
        preload: vec![],
    }
}

fn looped(times: u64, before: &[Instr], body: &[Instr]) -> Call {
    call(assembled(&repeated(times, before, body)), StateAccess::default())
}

fn arithmetic() -> Call {
    let body = [three(OpCode::Add, 3, 3, ONE), three(OpCode::Xor, 4, 4, 3), three(OpCode::MulW, 5, 5, 4), three(OpCode::Shr, 6, 5, 3)];
    looped(20_000, &[ldi(5, 7)], &body)
}

fn wide() -> Call {
    let divide = Instr::DivW { dlo: 5, dhi: 6, alo: 1, ahi: 2, blo: 3, bhi: 4 };
    looped(20_000, &[ldi(1, u64::MAX), ldi(2, u64::MAX / 3), ldi(3, 0x1234_5678_9ABC_DEF0), ldi(4, 0x1_0000_0001)], &[divide])
}

fn memory() -> Call {
    looped(20_000, &[ldi(1, 4096)], &[Instr::MStore { a: 1, b: COUNTER }, Instr::MLoad { d: 2, a: 1 }])
}

fn calls() -> Call {
    let mut code = repeated(20_000, &[], &[Instr::Nop]);
    code[2] = Instr::Call { target: code.len() as u32 };
    code.push(Instr::Ret);
    call(assembled(&code), StateAccess::default())
}

/// Halt, then as many Nops.
fn opening(bytes: usize) -> Call {
    let mut code = vec![OpCode::Nop as u8; bytes];
    code[0] = OpCode::Halt as u8;
    call(code, StateAccess::default())
}

/// A body so many times; after each the word at 24, the low end of the 32 bytes at 0, is counted up.
fn counting(times: u64, before: &[Instr], body: &[Instr]) -> Vec<u8> {
    let next = [Instr::MLoad { d: 2, a: 1 }, three(OpCode::Add, 2, 2, ONE), Instr::MStore { a: 1, b: 2 }];
    let body = [body, &next].concat();
    assembled(&repeated(times, &[&[ldi(1, 24), ldi(3, 32)], before].concat(), &body))
}

/// A store to each of so many declared keys.
fn stores(keys: u64) -> Call {
    let access = StateAccess { writes: (0..keys).collect(), ..Default::default() };
    Call { sizes: rooms(keys as usize), ..call(counting(keys, &[], &[Instr::SStore { a: 0, b: ONE }]), access) }
}

/// The same, each key below the one before it: every row is moved.
fn falling(keys: u64) -> Call {
    let access = StateAccess { writes: (1..=keys).collect(), ..Default::default() };
    let code = repeated(keys, &[ldi(1, 24)], &[Instr::MStore { a: 1, b: COUNTER }, Instr::SStore { a: 0, b: ONE }]);
    Call { sizes: rooms(keys as usize), ..call(assembled(&code), access) }
}

/// A transfer to each of so many targets.
fn sends(targets: u64) -> Call {
    posts(targets, OpCode::Send)
}

fn posts(records: u64, op: OpCode) -> Call {
    let code = counting(records, &[], &[three(op, 0, 3, ONE)]);
    Call { sizes: rooms(records as usize), ..call(code, StateAccess::default()) }
}

/// A Hash of a declared base and a key more each time; the replies change nothing.
fn hashes(keys: usize) -> Call {
    let access = StateAccess { keyed_writes: vec![6], ..Default::default() };
    let code = counting(keys as u64, &[ldi(4, 64), ldi(5, 8)], &[three(OpCode::Hash, 4, 5, 0)]);
    let mut reply = [0; 48];
    reply[1] = 255;
    let preload = [&[0; 64][..], &6u64.to_be_bytes()].concat();
    Call { replies: reply.repeat(keys), preload, sizes: rooms(keys), ..call(code, access) }
}

/// The demo's call, over tables and a log as small as it needs.
fn bill() -> Call {
    let files = ["demo/container.bin", "demo/store.bin", "demo/call.bin"];
    Call { sizes: rooms(32), ..demo::call(&files).unwrap() }
}

pub fn all() -> Vec<(&'static str, Call)> {
    vec![
        ("arithmetic, 120000 instructions", arithmetic()),
        ("DivW, 20000", wide()),
        ("memory, 40000 words", memory()),
        ("calls and returns, 20000", calls()),
        ("opening, 100 bytes of code", opening(100)),
        ("opening, 4096 bytes", opening(4096)),
        ("opening, 65536 bytes", opening(65536)),
        ("8 keys stored", stores(8)),
        ("100 keys", stores(100)),
        ("1000 keys", stores(1000)),
        ("4000 keys", stores(4000)),
        ("4000 keys, falling", falling(4000)),
        ("Hash, 1000 keys authorised", hashes(1000)),
        ("1 Send", sends(1)),
        ("100 Sends, as many targets", sends(100)),
        ("4000 Sends", sends(4000)),
        ("1000 Emits of 32 bytes", posts(1000, OpCode::Emit)),
        ("the demo's bill", bill()),
    ]
}

/// A valid container with every part at its limit: code of loads and jumps, 4096 constants, 256 entries of 16 slots.
pub fn large() -> Container {
    let mut code = Vec::new();
    while code.len() + 10 <= 65536 {
        ldi(1, code.len() as u64).encode(&mut code);
        Instr::Jz { a: 1, target: 0 }.encode(&mut code);
    }
    code.resize(65536, OpCode::Nop as u8);
    let access = StateAccess { reads: (0..16).collect(), ..Default::default() };
    let entry = |i: u32| Entry { selector: i.to_be_bytes(), offset: 0, access: access.clone() };
    Container::new(code, vec![7; 4096], (0..256).map(entry).collect())
}
