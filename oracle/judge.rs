//! What the Rust says of a call, and what document 01 says where the Rust has no word for it: 44, 45, 46 before the Rust opens, 47, 48.

use crate::reader;
use qvm::container::Container;
use qvm::crypto::{lend_replies, reply_missing, REPLY_BYTES};
use qvm::interp::{Effect, Fault, Interpreter, Outcome, Sizes, StorageKey};
use qvm::isa::take_decodes;
use qvm::numbers::{of_fault, Refusal};
use std::collections::BTreeMap;

const BAD_BUFFER: u64 = 44;
pub const BAD_TABLE: u64 = 45;
const BAD_REPLY: u64 = 46;
const NO_REPLY: u64 = 47;
pub const NO_ROOM: u64 = 48;

pub const ROW: usize = 40;
pub const KEY: usize = 32;

// Lent buffers in the order of the call's parameters; the stack counts words.
pub const BUFFERS: usize = 9;
pub const FIXED: [usize; 3] = [65536, 1024, 8192];
pub const STACK: usize = 1;
pub const CHANGES: usize = 3;
pub const LOG: usize = 8;

/// What every lent byte is before a call.
pub const FILL: u8 = 0xA5;

#[derive(Clone)]
pub struct Call {
    pub genesis: bool,
    pub selector: [u8; 4],
    pub limit: u64,
    pub present: bool,
    pub sizes: [usize; BUFFERS],
    pub container: Vec<u8>,
    pub store: Vec<u8>,
    pub loader: Vec<u8>,
    pub replies: Vec<u8>,
    pub preload: Vec<u8>,
}

pub enum End {
    /// Not opened.
    Refused(Refusal),
    /// A fault and the fetches up to it.
    Faulted(Refusal, u64),
    Halted(Outcome, u64),
}

impl Call {
    /// Each table holds as many whole rows as fit.
    fn rooms(&self) -> Sizes {
        let [_, _, _, changes, fetched, reads, writes, fresh, log] = self.sizes;
        [changes / ROW, fetched / ROW, reads / KEY, writes / KEY, fresh / KEY, log]
    }

    fn open<'b>(&self, container: &'b Container, loader: &'b dyn Fn(&StorageKey) -> u64) -> Result<Interpreter<'b>, Fault> {
        let opened = if self.genesis {
            Interpreter::for_genesis(container, self.limit)?
        } else {
            Interpreter::for_entry(container, self.selector, self.limit)?
        };
        let lent = opened.with_storage(rows(&self.store)).with_memory(&self.preload);
        lend_replies(&self.replies);
        Ok(if self.present { lent.with_storage_loader(loader) } else { lent })
    }
}

pub fn rows(table: &[u8]) -> BTreeMap<StorageKey, u64> {
    let row = |row: &[u8]| (row[..KEY].try_into().unwrap(), u64::from_be_bytes(row[KEY..].try_into().unwrap()));
    table.chunks_exact(ROW).map(row).collect()
}

/// Whole rows, their keys strictly rising.
pub fn is_table(bytes: &[u8]) -> bool {
    let keys = bytes.chunks_exact(ROW).map(|row| &row[..KEY]);
    bytes.len() % ROW == 0 && keys.is_sorted_by(|a, b| a < b)
}

fn zero(bytes: &[u8]) -> bool {
    bytes.iter().all(|b| *b == 0)
}

/// Document 01's layout of a reply.
fn is_reply(row: &[u8]) -> bool {
    let (outcome, register) = (row[0], row[1]);
    let (value, length, bytes) = (&row[2..10], usize::from(row[10]), &row[15..47]);
    let offset = u32::from_be_bytes(row[11..15].try_into().unwrap()) as usize;
    if outcome != 0 {
        return outcome <= 14 && register == 255 && zero(&row[2..]);
    }
    (register < 16 || register == 255 && zero(value))
        && length <= 32
        && (length > 0 || offset == 0)
        && offset + length <= 65536
        && zero(&bytes[length..])
        && row[47] == 0
}

/// What the Rust has no word for, in document 01's order.
fn given(call: &Call) -> Result<Container, u64> {
    if call.sizes[..3] != FIXED {
        return Err(BAD_BUFFER);
    }
    let container = reader::read(&call.container)?;
    if !is_table(&call.store) || call.present && !is_table(&call.loader) {
        return Err(BAD_TABLE);
    }
    if call.replies.len() % REPLY_BYTES != 0 || !call.replies.chunks_exact(REPLY_BYTES).all(is_reply) {
        return Err(BAD_REPLY);
    }
    Ok(container)
}

pub fn run(call: &Call) -> End {
    let container = match given(call) {
        Ok(container) => container,
        Err(number) => return End::Refused((number, 0)),
    };
    let table = rows(&call.loader);
    let loader = |key: &StorageKey| table.get(key).copied().unwrap_or(0);
    let opened = match call.open(&container, &loader) {
        Ok(opened) => opened,
        Err(fault) => return End::Refused(of_fault(fault)),
    };
    take_decodes();
    let end = opened.run();
    let fetches = take_decodes();
    let missing = reply_missing();
    let again = call.open(&container, &loader).unwrap();
    if let Some(finished) = again.overflow(&call.rooms()) {
        assert!(finished <= fetches);
        return End::Faulted((NO_ROOM, 0), finished);
    }
    match end {
        Ok(outcome) => End::Halted(outcome, fetches),
        Err(_) if missing => End::Faulted((NO_REPLY, 0), fetches),
        Err(fault) => End::Faulted(of_fault(fault), fetches),
    }
}

/// The keys stored, with their last values.
pub fn changes(outcome: &Outcome) -> Vec<u8> {
    let row = |key: &StorageKey| [&key[..], &outcome.storage[key].to_be_bytes()].concat();
    outcome.dirty.iter().flat_map(row).collect()
}

/// Each effect's data, then the trailer that points back.
pub fn log(effects: &[Effect]) -> Vec<u8> {
    let record = |effect: &Effect| {
        let (kind, word, data) = match effect {
            Effect::Transfer { to, amount } => (0, *amount, to),
            Effect::Event { selector, data } => (1, u64::from(u32::from_be_bytes(*selector)) << 32, data),
        };
        let length = data.len() as u32;
        [&data[..], &[kind], &word.to_be_bytes(), &length.to_be_bytes()].concat()
    };
    effects.iter().flat_map(record).collect()
}

/// The answer's seven counts: number, argument, fetches, used, fetched, changes, log bytes.
pub fn counts(end: &End) -> [u64; 7] {
    match end {
        End::Refused((number, argument)) => [*number, *argument, 0, 0, 0, 0, 0],
        End::Faulted((number, argument), fetches) => [*number, *argument, *fetches, 0, 0, 0, 0],
        End::Halted(o, fetches) => {
            let log = log(&o.effects).len() as u64;
            [0, 0, *fetches, o.meter_used, o.fetched as u64, o.dirty.len() as u64, log]
        }
    }
}
