//! Random calls, kept as parts that can be made smaller: a program, tables by rows, damage by bytes.

use crate::judge::{Call, BUFFERS, FIXED};
use crate::programs::{assembled, offset, raw, strays, Writer, OUTPUTS, PREIMAGES, SLOTS};
use crate::random::Source;
use qvm::container::{selector, Container, Entry, StateAccess, GENESIS_SIGNATURE};
use qvm::isa::Instr;
use qvm::numbers::FAULTS;

const AMPLE: u64 = 5_000_000;
/// Bytes of the six tables and the log: no two alike, so that one in another's place shows.
const ROOMS: [usize; 6] = [640, 680, 512, 544, 576, 8192];
const WHOLE_LOG: usize = 1 << 20;

/// A change of bytes.
#[derive(Clone, Copy, Debug)]
pub enum Damage {
    Cut(usize),
    Byte(usize, u8),
    More(u8),
}

impl Damage {
    fn random(source: &mut Source, length: usize) -> Self {
        let at = source.below(length + 1);
        match source.below(4) {
            0 => Damage::Cut(at),
            1 => Damage::More(source.word() as u8),
            _ => Damage::Byte(at, source.pick(&[0, 1, 5, 16, 255])),
        }
    }

    fn apply(self, bytes: &mut Vec<u8>) {
        match self {
            Damage::Cut(at) => bytes.truncate(at),
            Damage::More(byte) => bytes.push(byte),
            Damage::Byte(at, byte) => {
                if let Some(place) = bytes.get_mut(at) {
                    *place = byte;
                }
            }
        }
    }
}

/// Entries' offsets are places in the program, as its targets are.
#[derive(Clone, Debug)]
pub struct Plan {
    pub code: Vec<Instr>,
    pub tail: Vec<u8>,
    pub consts: Vec<u64>,
    pub entries: Vec<Entry>,
    pub genesis: bool,
    pub selector: [u8; 4],
    pub limit: u64,
    pub present: bool,
    pub store: Vec<Vec<u8>>,
    pub loader: Vec<Vec<u8>>,
    pub replies: Vec<Vec<u8>>,
    pub preload: Vec<u8>,
    pub sizes: [usize; BUFFERS],
    /// Words that the answer has room for.
    pub answer: usize,
    /// What is done to the list of entries and to the list of changes.
    pub lists: usize,
    pub damage: Vec<Damage>,
}

impl Plan {
    pub fn container(&self) -> Container {
        let code = [assembled(&self.code), self.tail.clone()].concat();
        let entry = |e: &Entry| Entry { offset: offset(&self.code, e.offset), ..e.clone() };
        Container::new(code, self.consts.clone(), self.entries.iter().map(entry).collect())
    }

    pub fn call(&self) -> Call {
        let mut container = self.container().canonical_bytes();
        for damage in &self.damage {
            damage.apply(&mut container);
        }
        Call {
            genesis: self.genesis,
            selector: self.selector,
            limit: self.limit,
            present: self.present,
            sizes: self.sizes,
            container,
            store: self.store.concat(),
            loader: self.loader.concat(),
            replies: self.replies.concat(),
            preload: self.preload.clone(),
        }
    }
}

fn slot(number: usize) -> [u8; 32] {
    let mut key = [0; 32];
    key[31] = number as u8;
    key
}

/// Each slot in some of the four lists; most that are read may be written.
fn lists(source: &mut Source) -> StateAccess {
    let kinds = ["", "r", "w", "w", "w", "rw", "R", "W", "wW", "wW", "RW"];
    let chosen: Vec<&str> = (0..SLOTS).map(|_| source.pick(&kinds)).collect();
    let of = |letter| (0..SLOTS as u64).filter(|i| chosen[*i as usize].contains(letter)).collect();
    StateAccess { reads: of('r'), writes: of('w'), keyed_reads: of('R'), keyed_writes: of('W') }
}

fn rows(source: &mut Source, keys: &[[u8; 32]]) -> Vec<Vec<u8>> {
    let mut keys: Vec<[u8; 32]> = keys.iter().copied().filter(|_| source.once_in(3)).collect();
    keys.sort();
    keys.dedup();
    let mut row = |key: [u8; 32]| [key.to_vec(), source.pick(&[0, 0, 1, 5, u64::MAX]).to_be_bytes().to_vec()].concat();
    keys.into_iter().map(&mut row).collect()
}

fn reply(source: &mut Source, digests: &[[u8; 32]]) -> Vec<u8> {
    let mut row = vec![0; 48];
    row[1] = 255;
    if source.once_in(40) {
        row[0] = 1 + source.below(FAULTS.len()) as u8;
        return row;
    }
    if source.once_in(4) {
        // seldom a register that counts a loop, which then runs until its meter is out
        let registers = if source.once_in(50) { 16 } else { 13 };
        row[1] = source.below(registers) as u8;
        row[9] = source.below(5) as u8;
    }
    if !source.once_in(5) {
        let length = if source.once_in(6) { 1 + source.below(32) } else { 32 };
        let at = if source.once_in(20) { 65536 - length as u64 } else { source.pick(&OUTPUTS) };
        row[10] = length as u8;
        row[11..15].copy_from_slice(&(at as u32).to_be_bytes());
        row[15..][..length].copy_from_slice(&source.pick(digests)[..length]);
    }
    row
}

/// The slots' keys, then the preimages that a Hash may read.
fn preload(source: &mut Source, access: &StateAccess, digests: &[[u8; 32]]) -> Vec<u8> {
    let mut bytes: Vec<u8> = (0..SLOTS).flat_map(slot).collect();
    let keyed: Vec<u64> = [&access.keyed_reads[..], &access.keyed_writes, &[3]].concat();
    for _ in PREIMAGES {
        bytes.extend(source.pick(&keyed).to_be_bytes());
        bytes.extend(source.pick(digests));
    }
    if source.once_in(50) {
        bytes.resize(65530 + source.below(20), 7);
    }
    bytes
}

fn program(source: &mut Source, access: &StateAccess, sort: usize) -> Vec<Instr> {
    let of = |slots: &[u64]| slots.iter().map(|s| s * 32).collect();
    let mut writer = Writer {
        source,
        readable: of(&[&access.reads[..], &access.writes].concat()),
        writable: of(&access.writes),
        code: Vec::new(),
    };
    match sort {
        0 => writer.endless(),
        1 => writer.long_posts(),
        2..=4 => writer.many_stores(),
        5..=30 => writer.wild(),
        _ => writer.structured(),
    }
    writer.code
}

pub fn random(source: &mut Source) -> Plan {
    let access = lists(source);
    let digests = [source.bytes(), source.bytes(), source.bytes(), slot(1)];
    let keys: Vec<[u8; 32]> = (0..SLOTS).map(slot).chain(digests).collect();
    let sort = source.below(200);
    let code = program(source, &access, sort);
    let limit = match sort {
        5..=30 => 2000 + source.below(3000) as u64,
        _ if strays(&code) => source.below(200_000) as u64,
        _ => AMPLE,
    };
    let [changes, fetched, reads, writes, fresh, log] = ROOMS;
    let log = if sort == 1 { WHOLE_LOG } else { log };
    let mut plan = Plan {
        tail: if source.once_in(6) { vec![source.pick(&[5, 16, 3, 99]), 16, 1][..1 + source.below(3)].to_vec() } else { vec![] },
        consts: (0..source.below(5)).map(|_| source.number()).collect(),
        entries: vec![Entry { selector: *b"abcd", offset: 0, access: access.clone() }],
        genesis: false,
        selector: *b"abcd",
        limit,
        present: !source.once_in(3),
        store: rows(source, &keys),
        loader: rows(source, &keys),
        replies: (0..source.pick(&[2, 8, 8, 12])).map(|_| reply(source, &digests)).collect(),
        preload: preload(source, &access, &digests),
        sizes: [FIXED[0], FIXED[1], FIXED[2], changes, fetched, reads, writes, fresh, log],
        answer: 23 + source.pick(&[0, 0, 0, 1, 5]),
        lists: source.below(8),
        damage: Vec::new(),
        code,
    };
    twist(source, &mut plan);
    plan
}

/// Some other room, limit, selector, entry or size; damage to tables, replies or the container.
fn twist(source: &mut Source, plan: &mut Plan) {
    if source.once_in(5) {
        let which = 3 + source.below(6);
        plan.sizes[which] = source.pick(&[0, 13, 31, 32, 39, 40, 64, 79, 80, 120]);
    }
    if source.once_in(8) {
        plan.limit = plan.limit.min(source.below(700_000) as u64);
    }
    match source.below(400) {
        0..=3 => plan.sizes[source.below(3)] += source.pick(&[1, usize::MAX]),
        4..=7 => plan.answer = source.below(23),
        8..=11 => plan.selector = source.bytes(),
        12..=15 => plan.selector = selector(GENESIS_SIGNATURE),
        16..=25 => genesis(source, plan),
        26..=29 => plan.entries.push(plan.entries[0].clone()),
        30..=33 => plan.entries[0].offset = raw(source.below(60) as u32),
        34..=37 => plan.entries[0].offset = source.below(plan.code.len() + 2) as u32,
        38..=41 => spoil(source, &mut plan.store),
        42..=45 => spoil(source, &mut plan.loader),
        46..=49 => spoil(source, &mut plan.replies),
        50..=79 => plan.damage.push(Damage::random(source, plan.container().canonical_bytes().len())),
        80 => enlarge(source, plan),
        _ => {}
    }
}

fn genesis(source: &mut Source, plan: &mut Plan) {
    plan.genesis = true;
    if !source.once_in(5) {
        plan.entries[0].selector = selector(GENESIS_SIGNATURE);
    }
}

/// Rows that are swapped, doubled or cut, or a byte in them that is another.
fn spoil(source: &mut Source, rows: &mut Vec<Vec<u8>>) {
    let Some(last) = rows.len().checked_sub(1) else { return };
    match source.below(4) {
        0 => rows.swap(0, last),
        1 => rows.push(rows[last].clone()),
        2 => rows[last].truncate(39),
        _ => {
            let (row, at) = (source.below(last + 1), source.below(48));
            if let Some(byte) = rows[row].get_mut(at) {
                *byte = source.pick(&[1, 15, 16, 33, 255]);
            }
        }
    }
}

/// A part at its limit or one above.
fn enlarge(source: &mut Source, plan: &mut Plan) {
    let more = source.below(2);
    match source.below(4) {
        0 => plan.tail = vec![0; 65536 + more - assembled(&plan.code).len()],
        1 => plan.consts = vec![7; 4096 + more],
        2 => {
            let mut entry = plan.entries[0].clone();
            for i in plan.entries.len()..256 + more {
                entry.selector = (i as u32).to_be_bytes();
                plan.entries.push(entry.clone());
            }
        }
        _ => {
            let access = &mut plan.entries[0].access;
            let others = access.writes.len() + access.keyed_reads.len() + access.keyed_writes.len();
            access.reads = (0..(4096 + more - others) as u64).collect();
        }
    }
}
