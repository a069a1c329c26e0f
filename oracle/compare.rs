//! `compare N SEED`: N random calls on the proved library and on the QVM Rust, in one process. It fails on a difference, which it makes
//! small and prints, and on a number that never came.

#[allow(dead_code)] // records have bytes, containers have none
mod input;
mod judge;
mod ours;
mod plan;
mod programs;
mod random;
mod reader;
mod sides;

use ours::Lent;
use plan::Plan;
use qvm::container::Entry;
use random::Source;
use sides::{compare, Tally};
use std::ops::RangeInclusive;

/// The numbers that each function can give: document 01's, but for those of functions that are not called here.
const CAN_GIVE: [(&str, &[RangeInclusive<u64>]); 5] = [
    ("call", &[0..=17, 41..=48]),
    ("verify", &[0..=0, 21..=29, 41..=43, 48..=48]),
    ("entry_offset", &[0..=0, 9..=9, 41..=43, 48..=48]),
    ("canonical_bytes", &[0..=0, 48..=49]),
    ("change_list", &[0..=0, 45..=45, 48..=48]),
];

fn differs(plan: &Plan, lent: &mut Lent) -> bool {
    compare(plan, lent, &mut Tally::new()).is_err()
}

fn tables(plan: &mut Plan) -> [&mut Vec<Vec<u8>>; 3] {
    [&mut plan.replies, &mut plan.store, &mut plan.loader]
}

fn lists(entry: &mut Entry) -> [&mut Vec<u64>; 4] {
    let access = &mut entry.access;
    [&mut access.reads, &mut access.writes, &mut access.keyed_reads, &mut access.keyed_writes]
}

/// All parts of a plan, counted.
fn size(plan: &Plan) -> usize {
    let mut plan = plan.clone();
    let rows: usize = tables(&mut plan).map(|table| table.len()).iter().sum();
    let slots: usize = plan.entries.iter_mut().flat_map(lists).map(|list| 1 + list.len()).sum();
    rows + slots + plan.code.len() + plan.tail.len() + plan.consts.len() + plan.preload.len() + plan.damage.len()
}

/// The plan with some part less, for each part.
fn smaller(plan: &Plan) -> Vec<Plan> {
    let mut less = Vec::new();
    let mut with = |change: &dyn Fn(&mut Plan)| {
        let mut plan = plan.clone();
        change(&mut plan);
        less.push(plan);
    };
    for at in 0..plan.code.len() {
        with(&|p| p.code = programs::without(&p.code, at));
    }
    for (table, rows) in tables(&mut plan.clone()).map(|table| table.len()).into_iter().enumerate() {
        (0..rows).for_each(|at| with(&|p| drop(tables(p)[table].remove(at))));
    }
    for list in 0..4 {
        with(&|p| p.entries.iter_mut().for_each(|entry| lists(entry)[list].clear()));
    }
    with(&|p| p.preload.truncate(p.preload.len() / 2));
    with(&|p| p.tail.truncate(p.tail.len() / 2));
    with(&|p| p.consts.truncate(p.consts.len() / 2));
    with(&|p| p.entries.truncate(p.entries.len() / 2 + 1));
    with(&|p| p.damage.clear());
    less.retain(|less| size(less) < size(plan));
    less
}

fn smallest(mut plan: Plan, lent: &mut Lent) -> Plan {
    while let Some(less) = smaller(&plan).into_iter().find(|less| differs(less, lent)) {
        plan = less;
    }
    plan
}

fn fail(plan: Plan, lent: &mut Lent) -> ! {
    let plan = smallest(plan, lent);
    let difference = compare(&plan, lent, &mut Tally::new()).unwrap_err();
    for (place, instr) in plan.code.iter().enumerate() {
        println!("{place:3} {instr:?}");
    }
    println!("{plan:?}\ncontainer {:02x?}\ndifferent: {difference}", plan.call().container);
    std::process::exit(1);
}

fn print(tally: &Tally) -> bool {
    let mut all = true;
    for (name, numbers) in CAN_GIVE {
        println!("{name}");
        for number in numbers.iter().cloned().flatten() {
            let count = tally.get(&(name, number)).copied().unwrap_or(0);
            println!("{number:7} {count:9}");
            all &= count > 0;
        }
    }
    all
}

fn main() {
    let mut words = std::env::args().skip(1).map(|word| word.parse::<u64>().expect("a number"));
    let (count, seed) = (words.next().unwrap_or(1_000_000), words.next().unwrap_or(1));
    let mut source = Source::new(seed);
    let (mut lent, mut tally, mut next) = (Lent::new(), Tally::new(), Vec::new());
    for _ in 0..count {
        let plan = next.pop().unwrap_or_else(|| plan::random(&mut source));
        let used = match compare(&plan, &mut lent, &mut tally) {
            Ok(used) => used,
            Err(_) => fail(plan, &mut lent),
        };
        // A call with ample meter, once more with just what it used, one less, or anything below.
        if let Some(used) = used.filter(|used| *used < plan.limit && source.once_in(2)) {
            let below = source.below(used as usize) as u64;
            let limit = source.pick(&[used, used - 1, below]);
            next.push(Plan { limit, ..plan });
        }
    }
    let all = print(&tally);
    println!("{count} calls, seed {seed}: no difference");
    if !all {
        println!("a number never came");
        std::process::exit(1);
    }
}
