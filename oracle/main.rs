//! The QVM Rust as judge: `oracle codec|arith|bench|verdict|stores|key_steps|runs`, records on standard input, a line each on standard output;
//! `oracle demo CONTAINER STORE CALL`, what settle prints of these files.

mod arith;
mod bench;
mod codec;
mod demo;
mod input;
mod judge;
mod key_steps;
mod reader;
mod runs;
mod stores;
mod verdict;

use input::Input;
use std::io::{self, Read, Write};

fn main() -> io::Result<()> {
    let words: Vec<String> = std::env::args().skip(1).collect();
    let name = words.first().cloned().unwrap_or_default();
    if name == "demo" {
        print!("{}", demo::report(&words[1..])?);
        return Ok(());
    }
    let line: fn(&mut Input) -> Option<String> = match name.as_str() {
        "codec" => codec::line,
        "arith" => arith::line,
        "bench" => bench::line,
        "verdict" => verdict::line,
        "stores" => stores::line,
        "key_steps" => key_steps::line,
        "runs" => runs::line,
        _ => {
            eprintln!("usage: oracle codec|arith|bench|verdict|stores|key_steps|runs, or oracle demo CONTAINER STORE CALL");
            std::process::exit(2);
        }
    };
    let mut bytes = Vec::new();
    io::stdin().read_to_end(&mut bytes)?;
    let mut input = Input { rest: &bytes };
    let mut out = io::BufWriter::new(io::stdout().lock());
    while !input.rest.is_empty() {
        writeln!(out, "{}", line(&mut input).expect("a record is cut short"))?;
    }
    out.flush()
}
