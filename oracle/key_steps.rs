//! `key_steps`: loads, stores and authorisations as interp.rs's SLoad, SStore and Hash make them; maps and sets with the room that our tables have.

use crate::input::Input;
use qvm::abi::scalar_key;
use qvm::interp::StorageKey as Key;
use qvm::meter::{FREE_DIRTY_SLOTS, KEYED_READ_METER, KEYED_SLOT_METER};
use std::collections::{BTreeMap, BTreeSet};

/// Bytes lent for changes, fetched values, readable keys, writable keys and keys that paid as fresh.
const ROOMS: [usize; 5] = [490, 410, 330, 256, 130];
const SLOTS: usize = 12;
const PRIME: u64 = 4294967291;

/// What a run is given: the manifest and the loader. The store begins as the storage.
struct Given {
    reads: BTreeSet<Key>,
    writes: BTreeSet<Key>,
    keyed_reads: BTreeSet<u64>,
    keyed_writes: BTreeSet<u64>,
    loader: Option<BTreeMap<Key, u64>>,
}

/// What interp.rs keeps of keys, what it charged for them, and the bytes of the authorised ones.
#[derive(Clone, Default)]
struct Known {
    storage: BTreeMap<Key, u64>,
    loaded: BTreeMap<Key, u64>,
    dirty: BTreeSet<Key>,
    authorized_reads: BTreeSet<Key>,
    authorized_writes: BTreeSet<Key>,
    fresh_charged: BTreeSet<Key>,
    meter_used: u64,
    keyed_bytes: u64,
}

impl Known {
    fn value(&mut self, given: &Given, key: &Key) -> u64 {
        if let Some(v) = self.storage.get(key).or(self.loaded.get(key)) {
            return *v;
        }
        let Some(loader) = &given.loader else { return 0 };
        let fetched = loader.get(key).copied().unwrap_or(0);
        self.loaded.insert(*key, fetched);
        fetched
    }

    fn store(&mut self, given: &Given, key: Key, val: u64) {
        let prior = self.value(given, &key);
        let fresh = val != 0 && prior == 0 && !self.fresh_charged.contains(&key);
        let keyed = self.authorized_writes.contains(&key);
        if fresh && (keyed || self.dirty.len() >= FREE_DIRTY_SLOTS) {
            self.fresh_charged.insert(key);
            self.meter_used += KEYED_SLOT_METER;
        } else if self.dirty.insert(key)
            && self.dirty.len() > FREE_DIRTY_SLOTS
            && !self.fresh_charged.contains(&key)
        {
            self.meter_used += KEYED_SLOT_METER;
        }
        self.dirty.insert(key);
        self.storage.insert(key, val);
    }

    fn authorise(&mut self, key: Key, is_write: bool) {
        let already = self.authorized_writes.contains(&key) || self.authorized_reads.contains(&key);
        if !already {
            self.meter_used += KEYED_READ_METER;
        }
        if is_write && self.authorized_writes.insert(key) {
            self.keyed_bytes += 32;
        }
        if self.authorized_reads.insert(key) {
            self.keyed_bytes += 32;
        }
    }

    /// The five tables' rows: keys rising, with values in the first two.
    fn tables(&self) -> [Vec<Vec<u8>>; 5] {
        let row = |(key, value): (&Key, &u64)| [&key[..], &value.to_be_bytes()].concat();
        let keys = |set: &BTreeSet<Key>| set.iter().map(|key| key.to_vec()).collect();
        [
            self.dirty.iter().map(|key| row((key, &self.storage[key]))).collect(),
            self.loaded.iter().map(row).collect(),
            keys(&self.authorized_reads),
            keys(&self.authorized_writes),
            keys(&self.fresh_charged),
        ]
    }

    fn fits(&self) -> bool {
        self.tables().iter().zip(ROOMS).all(|(rows, room)| rows.concat().len() <= room)
    }

    /// Rows and the sum of all bytes of each table, zeroes behind the rows too.
    fn summary(&self) -> String {
        let told = |(rows, room): (&Vec<Vec<u8>>, usize)| {
            let mut bytes = rows.concat();
            bytes.resize(room, 0);
            let sum = bytes.iter().fold(0, |sum, byte| (sum * 257 + u64::from(*byte)) % PRIME);
            format!(" {} {sum}", rows.len())
        };
        self.tables().iter().zip(ROOMS).map(told).collect()
    }
}

struct Run {
    given: Given,
    known: Known,
}

impl Run {
    /// What was told of a step before it is made, then what holds after it, or 48 where a table would run over.
    fn settle(&mut self, next: Known, plan: String, done: String) -> String {
        if !next.fits() {
            return format!("{plan}no 48");
        }
        self.known = next;
        plan + &done
    }

    fn load(&mut self, key: Key) -> String {
        let declared = self.given.reads.contains(&key) || self.given.writes.contains(&key);
        if !declared && !self.known.authorized_reads.contains(&key) {
            return "no 12".to_string();
        }
        let mut next = self.known.clone();
        let value = next.value(&self.given, &key);
        let done = format!("value {value} rows {}", next.loaded.len());
        self.settle(next, String::new(), done)
    }

    fn store(&mut self, key: Key, val: u64) -> String {
        if !self.given.writes.contains(&key) && !self.known.authorized_writes.contains(&key) {
            return "no 12".to_string();
        }
        let mut next = self.known.clone();
        next.store(&self.given, key, val);
        let fresh = if next.fresh_charged == self.known.fresh_charged { "" } else { "fresh " };
        let plan = format!("{fresh}price {} ", next.meter_used - self.known.meter_used);
        let done = format!("rows {} {} {}", next.dirty.len(), next.loaded.len(), next.fresh_charged.len());
        self.settle(next, plan, done)
    }

    fn authorise(&mut self, key: Key, base: u64) -> String {
        let is_write = self.given.keyed_writes.contains(&base);
        if !is_write && !self.given.keyed_reads.contains(&base) {
            return "not keyed".to_string();
        }
        let mut next = self.known.clone();
        next.authorise(key, is_write);
        let price = next.meter_used - self.known.meter_used;
        let plan = format!("price {price} bytes {} ", next.keyed_bytes - self.known.keyed_bytes);
        let done = format!("rows {} {}", next.authorized_reads.len(), next.authorized_writes.len());
        self.settle(next, plan, done)
    }

    fn one(&mut self, op: u8, key: Key, v: u64) -> String {
        match op {
            0 => self.load(key),
            1 => self.store(key, v),
            2 => self.authorise(key, v),
            _ => format!("tables{}", self.known.summary()),
        }
    }
}

fn slots(input: &mut Input) -> Option<Vec<u64>> {
    (0..SLOTS).map(|_| input.u64()).collect()
}

fn keys_of(slots: Vec<u64>) -> BTreeSet<Key> {
    slots.into_iter().map(scalar_key).collect()
}

fn key(input: &mut Input) -> Option<Key> {
    input.bytes(32).map(|b| b.try_into().unwrap())
}

fn rows(input: &mut Input, count: u8) -> Option<Vec<(Key, u64)>> {
    (0..count).map(|_| Some((key(input)?, input.u64()?))).collect()
}

/// A table as a map, if its keys rise.
fn map_of(rows: Vec<(Key, u64)>) -> Option<BTreeMap<Key, u64>> {
    let rising = rows.windows(2).all(|pair| pair[0].0 < pair[1].0);
    rising.then(|| rows.into_iter().collect())
}

fn run(input: &mut Input) -> Option<String> {
    let (present, in_store, in_loader) = (input.u8()? == 1, input.u8()?, input.u8()?);
    let (reads, writes) = (keys_of(slots(input)?), keys_of(slots(input)?));
    let (keyed_reads, keyed_writes) = (slots(input)?, slots(input)?);
    let (store, loader) = (map_of(rows(input, in_store)?), map_of(rows(input, in_loader)?));
    let Some(storage) = store else { return Some("no 45".to_string()) };
    if present && loader.is_none() {
        return Some("no 45".to_string());
    }
    let given = Given {
        reads,
        writes,
        keyed_reads: keyed_reads.into_iter().collect(),
        keyed_writes: keyed_writes.into_iter().collect(),
        loader: loader.filter(|_| present),
    };
    let mut run = Run { given, known: Known { storage, ..Known::default() } };
    let mut lines = Vec::new();
    while !input.rest.is_empty() {
        let (op, key, v) = (input.u8()?, key(input)?, input.u64()?);
        lines.push(run.one(op, key, v));
    }
    Some(lines.join("\n"))
}

/// A record is a whole run: its length (4), its head, and a line for each operation (1), key (32) and value (8).
pub fn line(input: &mut Input) -> Option<String> {
    let length = input.u32()? as usize;
    run(&mut Input { rest: input.bytes(length)? })
}
