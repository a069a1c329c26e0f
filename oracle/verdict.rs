//! `verdict`: the reader's refusal of each container, or what verify says of it.

use crate::input::Input;
use crate::reader::read;
use qvm::container::Container;
use qvm::numbers::{of_verify, Refusal};

fn verified(bytes: &[u8]) -> Result<Container, Refusal> {
    let container = read(bytes).map_err(|number| (number, 0))?;
    container.verify().map_err(of_verify)?;
    Ok(container)
}

/// From this length on a record stands for code of so many zero bytes more, which would be long to write out.
const LARGE: u32 = 1 << 31;

/// A record: length (4), that many bytes of a container.
pub fn line(input: &mut Input) -> Option<String> {
    let length = input.u32()?;
    let bytes = match length.checked_sub(LARGE) {
        Some(n) => Container::new(vec![0; n as usize], vec![], vec![]).canonical_bytes(),
        None => input.bytes(length as usize)?.to_vec(),
    };
    Some(match verified(&bytes) {
        Ok(c) => format!(
            "ok code={} consts={} entries={}",
            c.code.len(),
            c.consts.len(),
            c.entries.len()
        ),
        Err((number, argument)) => format!("no {number} {argument}"),
    })
}
