//! `demo CONTAINER STORE CALL`: a call from settle's files, run by the Rust; the lines that settle prints of it.

use crate::input::Input;
use crate::judge::{run, Call, End};
use qvm::crypto::REPLY_BYTES;
use qvm::interp::{Effect, Outcome};
use qvm::numbers::{fault_of, Refusal};
use std::fs;
use std::io;

/// Settle's buffers: tables of 4096 rows and a log that takes all that a run may post.
const SIZES: [usize; 9] = [65536, 1024, 8192, 163840, 163840, 131072, 131072, 131072, 1048576];

fn hex(bytes: &[u8]) -> String {
    bytes.iter().map(|b| format!("{b:02x}")).collect()
}

fn parts(container: Vec<u8>, store: Vec<u8>, file: &[u8]) -> Option<Call> {
    let mut input = Input { rest: file };
    let selector = input.u32()?.to_be_bytes();
    let limit = input.u64()?;
    let (replies, preload) = (input.u32()? as usize, input.u32()? as usize);
    Some(Call {
        genesis: false,
        selector,
        limit,
        present: false,
        sizes: SIZES,
        container,
        store,
        loader: Vec::new(),
        replies: input.bytes(replies * REPLY_BYTES)?.to_vec(),
        preload: input.bytes(preload)?.to_vec(),
    })
}

fn effect(effect: &Effect) -> String {
    match effect {
        Effect::Transfer { to, amount } => format!("transfer {amount} to {}", hex(to)),
        Effect::Event { selector, data } => format!("event {} length {} data {}", hex(selector), data.len(), hex(data)),
    }
}

fn halted(outcome: &Outcome, limit: u64, fetches: u64) -> Vec<String> {
    let mut lines = vec!["halted".to_string(), format!("used {} of {limit}", outcome.meter_used), format!("fetches {fetches}")];
    lines.push(format!("changes {}", outcome.dirty.len()));
    lines.extend(outcome.dirty.iter().map(|key| format!("{} = {}", hex(key), outcome.storage[key])));
    lines.push(format!("effects {}", outcome.effects.len()));
    lines.extend(outcome.effects.iter().map(effect));
    lines
}

fn ended(word: &str, (number, argument): Refusal, fetches: u64) -> Vec<String> {
    let name = fault_of(number as u8);
    vec![format!("{word} {number} {name:?} {argument}"), format!("fetches {fetches}")]
}

/// The call that settle's three files hold.
pub fn call<Path: AsRef<str>>([container, store, file]: &[Path; 3]) -> io::Result<Call> {
    let (container, store, file) = (fs::read(container.as_ref())?, fs::read(store.as_ref())?, fs::read(file.as_ref())?);
    Ok(parts(container, store, &file).expect("the call is cut short"))
}

pub fn report(files: &[String]) -> io::Result<String> {
    let call = call(files.try_into().expect("demo takes three files"))?;
    let lines = match run(&call) {
        End::Refused(refusal) => ended("refused", refusal, 0),
        End::Faulted(refusal, fetches) => ended("faulted", refusal, fetches),
        End::Halted(outcome, fetches) => halted(&outcome, call.limit, fetches),
    };
    Ok(lines.join("\n") + "\n")
}
