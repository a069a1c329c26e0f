//! `stores`: maps, sets and effects as interp.rs keeps them, each with the room that our bounded ones have.

use crate::input::Input;
use std::cell::RefCell;
use std::collections::{BTreeMap, BTreeSet};

const ROWS: usize = 50;
const LOG: usize = 4096;
const TRAILER: usize = 13;
const MINT: u64 = 0x4D49_4E54_0000_0000;

#[derive(Default)]
struct Stores {
    map: BTreeMap<Vec<u8>, u64>,
    set: BTreeSet<Vec<u8>>,
    effects: Vec<(u8, u64, Vec<u8>)>,
    end: usize,
}

thread_local!(static STORES: RefCell<Stores> = RefCell::default());

fn rows(fits: bool, count: usize) -> String {
    if fits {
        format!("rows {count}")
    } else {
        "no 48".to_string()
    }
}

impl Stores {
    /// As interp.rs's durable_targets: the kind with the bytes, so that equal bytes of the two kinds are two.
    fn targets(&self) -> BTreeSet<(u8, Vec<u8>)> {
        let target = |(kind, word, data): &(u8, u64, Vec<u8>)| match kind {
            0 => Some((0, data.clone())),
            _ if *word == MINT && data.len() >= 40 => Some((1, data[..32].to_vec())),
            _ => None,
        };
        self.effects.iter().filter_map(target).collect()
    }

    fn append(&mut self, kind: u8, word: u64, data: &[u8]) -> String {
        let end = self.end + data.len() + TRAILER;
        if end > LOG {
            return "no 48".to_string();
        }
        self.end = end;
        self.effects.push((kind, word, data.to_vec()));
        format!("end {end}")
    }

    fn known(&self, kind: u8, bytes: &[u8]) -> String {
        let known = self.targets().contains(&(kind, bytes.to_vec()));
        if known { "known" } else { "new" }.to_string()
    }

    fn counts(&self) -> String {
        let events = self.effects.iter().filter(|e| e.0 == 1).count();
        let target = if self.targets().is_empty() { "" } else { " target" };
        format!("log {} {events}{target}", self.effects.len())
    }

    fn one(&mut self, op: u8, body: &[u8]) -> String {
        let key = body[..32].to_vec();
        let v = u64::from_be_bytes(body[32..].try_into().unwrap());
        let some = &key[..(v % 33) as usize];
        match op {
            0 => {
                let fits = self.map.contains_key(&key) || self.map.len() < ROWS;
                if fits {
                    self.map.insert(key, v);
                }
                rows(fits, self.map.len())
            }
            1 => self.map.get(&key).map_or("nothing".to_string(), |v| format!("value {v}")),
            2 => {
                let fits = self.set.contains(&key) || self.set.len() < ROWS;
                if fits {
                    self.set.insert(key);
                }
                rows(fits, self.set.len())
            }
            3 => if self.set.contains(&key) { "has" } else { "has not" }.to_string(),
            4 => self.append(0, v, some),
            5 => self.append(1, v, some),
            6 => self.known(0, some),
            7 => self.append(1, MINT, body),
            8 => self.known(1, &key),
            _ => self.counts(),
        }
    }
}

/// A record: operation (1), key (32), value (8).
pub fn line(input: &mut Input) -> Option<String> {
    let op = input.u8()?;
    let body = input.bytes(40)?;
    Some(STORES.with(|s| s.borrow_mut().one(op, body)))
}
