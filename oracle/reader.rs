//! Document 01's container reader, which the Rust lacks.

use crate::input::Input;
use qvm::container::{Container, Entry, StateAccess};

const BAD_TAG: u64 = 41;
const SHORT: u64 = 42;
const TRAILING: u64 = 43;

fn code(input: &mut Input) -> Option<Vec<u8>> {
    let count = input.u32()?;
    input.bytes(count as usize).map(<[u8]>::to_vec)
}

fn words(input: &mut Input) -> Option<Vec<u64>> {
    (0..input.u32()?).map(|_| input.u64()).collect()
}

fn entry(input: &mut Input) -> Option<Entry> {
    Some(Entry {
        selector: input.u32()?.to_be_bytes(),
        offset: input.u32()?,
        access: StateAccess {
            reads: words(input)?,
            writes: words(input)?,
            keyed_reads: words(input)?,
            keyed_writes: words(input)?,
        },
    })
}

fn entries(input: &mut Input) -> Option<Vec<Entry>> {
    (0..input.u32()?).map(|_| entry(input)).collect()
}

/// The container, or the number of the refusal.
pub fn read(bytes: &[u8]) -> Result<Container, u64> {
    let mut input = Input { rest: bytes };
    if input.bytes(4).ok_or(SHORT)? != b"QVM1" {
        return Err(BAD_TAG);
    }
    let container = Container::new(
        code(&mut input).ok_or(SHORT)?,
        words(&mut input).ok_or(SHORT)?,
        entries(&mut input).ok_or(SHORT)?,
    );
    if !input.rest.is_empty() {
        return Err(TRAILING);
    }
    // What is accepted is what the writer writes, byte for byte.
    assert_eq!(container.canonical_bytes(), bytes);
    Ok(container)
}
