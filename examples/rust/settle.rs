//! Settles one call, as ../c/settle.c does: a program adds a meter's reading to the total in slot 1 and posts the new total as an event.

mod qvm;

use qvm::{Call, Lent};

const SELECTOR: u32 = 0x6162_6364;

// SLoad r1; Ldi r3 32; MLoad r2; Add r1 r1 r2; SStore r1; MStore r1 at r3; Ldi r4 8; Ldi r5 READ; Emit 8 bytes at r3; Halt.
const CODE: &[u8] = b"\x50\x01\x00\x03\x03\0\0\0\0\0\0\0\x20\x38\x02\x03\x10\x01\x01\x02\x51\x00\x01\x39\x03\x01\x03\x04\0\0\0\0\0\0\0\x08\x03\x05\0\0\0\0READ\x61\x03\x04\x05\x00";

/// One entry at 0; it writes slot 1.
const ENTRIES: [u64; 8] = [1, SELECTOR as u64, 0, 0, 1, 0, 0, 1];

fn key(slot: u8) -> Vec<u8> {
    [&[0; 31][..], &[slot]].concat()
}

fn hex(bytes: &[u8]) -> String {
    bytes.iter().map(|byte| format!("{byte:02x}")).collect()
}

fn main() {
    let container = qvm::canonical_bytes(CODE, &[], &ENTRIES).expect("a list of entries");
    let (number, code, entries) = qvm::verify(&container);
    println!("verify {number} code {code} entries {entries}");

    let store = [key(1), 1000u64.to_be_bytes().to_vec()].concat();
    let preload = [key(1), 42u64.to_be_bytes().to_vec()].concat();
    let call = Call { container: &container, selector: SELECTOR, limit: 100_000, store: &store, preload: &preload };
    let mut lent = Lent::new(16);
    let answer = lent.run(&call);
    println!("end {} used {} fetches {} register 1 {}", answer.number, answer.used, answer.fetches, answer.registers[1]);
    println!("log {}", hex(lent.log(&answer)));
    println!("changes {}", hex(&lent.change_list(&answer, &store)));
}
