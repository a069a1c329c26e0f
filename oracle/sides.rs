//! One call on both sides: what differs, if anything does.

use crate::judge::{self, Call, End, BUFFERS, CHANGES, FILL, LOG, NO_ROOM, STACK};
use crate::ours::{self, Lent, Told, GUARD, WORD};
use crate::plan::Plan;
use crate::reader;
use qvm::container::{Container, Entry};
use qvm::interp::Outcome;
use qvm::numbers::of_verify;
use std::collections::BTreeMap;

const CALL_WORDS: usize = 23;
const BAD_LIST: u64 = 49;
const UNKNOWN_SELECTOR: u64 = 9;

/// How often each function gave each number.
pub type Tally = BTreeMap<(&'static str, u64), u64>;

/// Which answer differs, and both of them.
pub type Difference = String;

fn same<T: PartialEq + std::fmt::Debug>(what: &str, ours: T, rust: T) -> Result<(), Difference> {
    if ours == rust {
        return Ok(());
    }
    Err(format!("{what}\n  ours: {ours:?}\n  rust: {rust:?}"))
}

/// An answer's buffer at the end: the words, and what stood after them; where they do not fit, 48 and nothing else.
fn told(words: &[u64], room: usize) -> Told {
    let mut answer = vec![WORD; room + GUARD];
    if room < words.len() {
        return (NO_ROOM as u32, answer);
    }
    answer[..words.len()].copy_from_slice(words);
    (words[0] as u32, answer)
}

/// A buffer that begins with some bytes and has one byte in all others, before the guard.
fn buffer(front: &[u8], rest: u8, size: usize) -> Vec<u8> {
    let mut bytes = vec![rest; size + GUARD];
    bytes[..front.len()].copy_from_slice(front);
    bytes[size..].fill(FILL);
    bytes
}

fn buffers(call: &Call, end: &End, opened: bool, lent: &Lent) -> Result<(), Difference> {
    let rest = if opened { 0 } else { FILL };
    let mut fronts: [Vec<u8>; BUFFERS] = Default::default();
    if let (End::Halted(outcome, _), true) = (end, opened) {
        fronts[CHANGES] = judge::changes(outcome);
        fronts[LOG] = judge::log(&outcome.effects);
    }
    for (i, front) in fronts.iter().enumerate().filter(|(i, _)| *i != STACK) {
        if lent.bytes[i] != buffer(front, rest, call.sizes[i]) {
            same(&format!("buffer {i}"), &lent.bytes[i], &buffer(front, rest, call.sizes[i]))?;
        }
    }
    let word = u64::from_ne_bytes([rest; 8]);
    let (stack, guard) = lent.stack.split_at(call.sizes[STACK]);
    same("stack", stack.iter().all(|w| *w == word) && guard.iter().all(|w| *w == WORD), true)
}

fn run(call: &Call, room: usize, lent: &mut Lent, tally: &mut Tally) -> Result<End, Difference> {
    let end = judge::run(call);
    lent.fill(call, room);
    lent.run(call, room);
    let registers = if let End::Halted(outcome, _) = &end { outcome.regs } else { [0; 16] };
    let words = [&judge::counts(&end)[..], &registers].concat();
    let expected = told(&words, room);
    *tally.entry(("call", expected.0.into())).or_default() += 1;
    same("call's answer", (lent.returned, &lent.answer), (expected.0, &expected.1))?;
    let opened = room >= CALL_WORDS && !matches!(end, End::Refused(_));
    buffers(call, &end, opened, lent)?;
    Ok(end)
}

fn verified(read: &Result<Container, u64>) -> [u64; 5] {
    let container = match read {
        Ok(container) => container,
        Err(number) => return [*number, 0, 0, 0, 0],
    };
    match container.verify() {
        Ok(()) => [0, 0, container.code.len() as u64, container.consts.len() as u64, container.entries.len() as u64],
        Err(error) => {
            let (number, argument) = of_verify(error);
            [number, argument, 0, 0, 0]
        }
    }
}

fn found(read: &Result<Container, u64>, selector: [u8; 4]) -> [u64; 2] {
    match read {
        Ok(container) => container.entry_offset(&selector).map_or([UNKNOWN_SELECTOR, 0], |offset| [0, offset.into()]),
        Err(number) => [*number, 0],
    }
}

/// What the writer takes for entries.
fn listed(entries: &[Entry]) -> Vec<u64> {
    let mut list = vec![entries.len() as u64];
    for entry in entries {
        let a = &entry.access;
        let slots = [&a.reads, &a.writes, &a.keyed_reads, &a.keyed_writes];
        list.extend([u32::from_be_bytes(entry.selector), entry.offset].map(u64::from));
        list.extend(slots.map(|s| s.len() as u64));
        slots.iter().for_each(|s| list.extend(*s));
    }
    list
}

/// The writer on the container's parts: as they are, with a list that is none, or with an output that is a byte short.
fn written(container: &Container, lists: usize, room: usize, tally: &mut Tally) -> Result<(), Difference> {
    let (mut list, bytes) = (listed(&container.entries), container.canonical_bytes());
    let (mut number, mut out) = (0, bytes.len() + lists);
    match lists {
        0 => drop(list.pop()),
        1 => list.push(0),
        2 => list[0] += 1 << 32,
        3 => out = bytes.len() - 1,
        _ => {}
    }
    if lists < 4 {
        number = if lists == 3 { NO_ROOM } else { BAD_LIST };
    }
    let front = if number == 0 && room >= 2 { &bytes[..] } else { &[] };
    let expected = told(&[number, if number == 0 { bytes.len() as u64 } else { 0 }], room);
    *tally.entry(("canonical_bytes", expected.0.into())).or_default() += 1;
    let (answer, output) = ours::canonical_bytes(&container.code, &container.consts, &list, out, room);
    same("canonical_bytes' answer", answer, expected)?;
    same("canonical_bytes' output", output, buffer(front, FILL, out))
}

/// The stored keys whose last value is not the starting one.
fn changed(call: &Call, outcome: &Outcome) -> Vec<u8> {
    let (store, loader) = (judge::rows(&call.store), judge::rows(&call.loader));
    let start = |key: &[u8; 32]| store.get(key).or(loader.get(key).filter(|_| call.present)).copied().unwrap_or(0);
    let rows = outcome.dirty.iter().filter(|key| outcome.storage[*key] != start(key));
    rows.flat_map(|key| [&key[..], &outcome.storage[key].to_be_bytes()].concat()).collect()
}

/// The change list of a halted call: as it is, with a count past the table, keys that fall, or an output that is a byte short.
fn reconciled(call: &Call, outcome: &Outcome, lists: usize, room: usize, tally: &mut Tally) -> Result<(), Difference> {
    let (mut table, list) = (judge::changes(outcome), changed(call, outcome));
    let (mut count, mut out, mut number) = (outcome.dirty.len() as u64, list.len() + lists, 0);
    match lists {
        0 => count += 1,
        1 if count > 1 => table.rotate_left(judge::ROW),
        2 if !list.is_empty() => out = list.len() - 1,
        _ => {}
    }
    if lists == 0 || lists == 1 && count > 1 {
        number = judge::BAD_TABLE;
    } else if out < list.len() {
        number = NO_ROOM;
    }
    let (front, rows) = if number == 0 { (&list[..], list.len() / judge::ROW) } else { (&[][..], 0) };
    let expected = told(&[number, rows as u64], room);
    *tally.entry(("change_list", expected.0.into())).or_default() += 1;
    let (answer, output) = ours::change_list(call, &table, count, out, room);
    same("change_list's answer", answer, expected)?;
    same("change_list's output", output, buffer(if room < 2 { &[] } else { front }, FILL, out))
}

/// All functions on a plan's call; what the call used, if it halted.
pub fn compare(plan: &Plan, lent: &mut Lent, tally: &mut Tally) -> Result<Option<u64>, Difference> {
    let call = plan.call();
    let end = run(&call, plan.answer, lent, tally)?;
    let read = reader::read(&call.container);
    let pair = if plan.answer < CALL_WORDS { 1 } else { plan.answer - 21 };
    let expected = told(&verified(&read), pair + 3);
    *tally.entry(("verify", expected.0.into())).or_default() += 1;
    same("verify's answer", ours::verify(&call.container, pair + 3), expected)?;
    let expected = told(&found(&read, call.selector), pair);
    *tally.entry(("entry_offset", expected.0.into())).or_default() += 1;
    same("entry_offset's answer", ours::entry_offset(&call.container, call.selector, pair), expected)?;
    if let Ok(container) = &read {
        written(container, plan.lists, pair, tally)?;
    }
    let End::Halted(outcome, _) = end else { return Ok(None) };
    reconciled(&call, &outcome, plan.lists, pair, tally)?;
    Ok(Some(outcome.meter_used))
}
