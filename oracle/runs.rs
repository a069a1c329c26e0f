//! `runs`: a call a record; the judge's answer, and a checksum of each lent buffer at its end.

use crate::input::Input;
use crate::judge::{changes, counts, log, run, Call, End, BUFFERS, CHANGES, FILL, LOG, STACK};

fn numbers<const N: usize>(input: &mut Input) -> Option<[usize; N]> {
    let mut numbers = [0; N];
    for number in &mut numbers {
        *number = input.u32()? as usize;
    }
    Some(numbers)
}

fn read(input: &mut Input) -> Option<Call> {
    let genesis = input.u8()? == 1;
    let selector = input.u32()?.to_be_bytes();
    let limit = input.u64()?;
    let present = input.u8()? == 1;
    let sizes = numbers(input)?;
    let [container, store, loader, replies, preload, times] = numbers(input)?;
    Some(Call {
        genesis,
        selector,
        limit,
        present,
        sizes,
        container: input.bytes(container)?.to_vec(),
        store: input.bytes(store)?.to_vec(),
        loader: input.bytes(loader)?.to_vec(),
        replies: input.bytes(replies)?.repeat(times),
        preload: input.bytes(preload)?.to_vec(),
    })
}

/// The numbers as digits to a base, modulo a prime: zero for zeros alone.
fn checksum(numbers: impl Iterator<Item = u64>) -> u64 {
    const BASE: u64 = 1_000_003;
    const PRIME: u64 = 4_294_967_291;
    numbers.fold(0, |sum, number| (sum * BASE + number % PRIME) % PRIME)
}

fn bytes_sum(bytes: &[u8], size: usize) -> u64 {
    let rest = std::iter::repeat_n(0, size - bytes.len());
    checksum(bytes.iter().copied().map(u64::from).chain(rest))
}

/// Buffers as they were lent.
fn untouched(call: &Call) -> [u64; BUFFERS] {
    let mut sums = call.sizes.map(|size| bytes_sum(&vec![FILL; size], size));
    sums[STACK] = checksum(std::iter::repeat_n(u64::from_be_bytes([FILL; 8]), call.sizes[STACK]));
    sums
}

fn joined(numbers: &[u64]) -> String {
    numbers.iter().map(|number| format!(" {number}")).collect()
}

/// A record: genesis 1, selector 4, limit 8, loader present 1, nine sizes of 4, five lengths of 4, how often the replies stand 4;
/// then container, store, loader, replies and preload.
pub fn line(input: &mut Input) -> Option<String> {
    let call = read(input)?;
    let end = run(&call);
    let [number, argument, fetches, used, fetched, changed, logged] = counts(&end);
    let mut head = format!("no {number} {argument}");
    let mut regs = [0; 16];
    let mut sums = [0; BUFFERS];
    match &end {
        End::Refused(_) => sums = untouched(&call),
        End::Faulted(..) => {}
        End::Halted(outcome, _) => {
            head = "halted".into();
            regs = outcome.regs;
            sums[CHANGES] = bytes_sum(&changes(outcome), call.sizes[CHANGES]);
            sums[LOG] = bytes_sum(&log(&outcome.effects), call.sizes[LOG]);
        }
    }
    let counts = format!("fetches {fetches} used {used} fetched {fetched} changes {changed} log {logged}");
    Some(format!("{head} {counts} regs{} buffers{}", joined(&regs), joined(&sums)))
}
