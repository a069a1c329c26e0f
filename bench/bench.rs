//! Our library and the QVM Rust on the same calls, in one process: medians in microseconds of processor time, and ours over the Rust's.

#[path = "../oracle/demo.rs"]
#[allow(dead_code)]
mod demo;
#[path = "../oracle/input.rs"]
#[allow(dead_code)]
mod input;
#[path = "../oracle/judge.rs"]
#[allow(dead_code)]
mod judge;
#[path = "../oracle/ours.rs"]
#[allow(dead_code)]
mod ours;
#[path = "../oracle/programs.rs"]
#[allow(dead_code)]
mod programs;
#[path = "../oracle/random.rs"]
#[allow(dead_code)]
mod random;
#[path = "../oracle/reader.rs"]
mod reader;

mod cases;

use judge::{rows, Call};
use ours::Lent;
use qvm::container::Container;
use qvm::crypto::lend_replies;
use qvm::interp::Interpreter;
use std::hint::black_box;
use std::time::Duration;

const RUNS: usize = 15;
const WORDS: usize = 23;
const USED: usize = 3;

fn median(mut times: Vec<Duration>) -> f64 {
    times.sort();
    times[times.len() / 2].as_secs_f64() * 1e6
}

#[repr(C)]
struct Timespec {
    seconds: i64,
    nanoseconds: i64,
}

extern "C" {
    fn clock_gettime(clock: i32, time: *mut Timespec) -> i32;
}

/// Linux's number for the thread's own processor time, which other work on the machine does not lengthen.
const THREAD_TIME: i32 = 3;

fn now() -> Duration {
    let mut time = Timespec { seconds: 0, nanoseconds: 0 };
    assert_eq!(unsafe { clock_gettime(THREAD_TIME, &mut time) }, 0);
    Duration::new(time.seconds as u64, time.nanoseconds as u32)
}

fn timed<T>(run: impl FnOnce() -> T) -> (Duration, T) {
    let start = now();
    let result = black_box(run());
    (now() - start, result)
}

/// What the call used, by ours; the buffers stand as the call before left them.
fn ours(call: &Call, lent: &mut Lent) -> (Duration, u64) {
    let (time, ()) = timed(|| lent.run(black_box(call), WORDS));
    assert_eq!(lent.returned, 0);
    (time, lent.answer[USED])
}

/// The same by the Rust; its container and its store are read before.
fn rust(call: &Call, container: &Container) -> (Duration, u64) {
    lend_replies(&call.replies);
    let store = rows(&call.store);
    let open = || Interpreter::for_entry(black_box(container), call.selector, call.limit).unwrap();
    let run = || open().with_storage(store).with_memory(&call.preload).run();
    let (time, outcome) = timed(run);
    (time, outcome.unwrap().meter_used)
}

fn line(name: &str, times: [Vec<Duration>; 2]) {
    let [ours, rust] = times.map(median);
    println!("{name:34} {ours:11.1} {rust:11.1} {:8.2}", ours / rust);
}

fn measure(name: &str, call: &Call) {
    let container = reader::read(&call.container).unwrap();
    let mut lent = Lent::new();
    lent.fill(call, WORDS);
    let mut times = [Vec::new(), Vec::new()];
    for _ in 0..RUNS {
        let (a, b) = (ours(call, &mut lent), rust(call, &container));
        assert_eq!(a.1, b.1, "{name}");
        times[0].push(a.0);
        times[1].push(b.0);
    }
    line(name, times);
}

fn verify() {
    let container = cases::large();
    let bytes = container.canonical_bytes();
    let mut times = [Vec::new(), Vec::new()];
    for _ in 0..RUNS {
        let (time, told) = timed(|| ours::verify(black_box(&bytes), 5));
        assert_eq!(told.0, 0);
        times[0].push(time);
        let (time, verified) = timed(|| black_box(&container).verify());
        assert!(verified.is_ok());
        times[1].push(time);
    }
    line("verify, every part at its limit", times);
}

fn main() {
    println!("{:34} {:>11} {:>11} {:>8}", "microseconds", "ours", "rust", "ratio");
    for (name, call) in cases::all() {
        measure(name, &call);
    }
    verify();
}
