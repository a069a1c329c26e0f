//! `bench`: steps on one register file, each run by the Rust's interpreter over the file as it stands. The whole input is one run.

use crate::input::Input;
use qvm::interp::Interpreter;
use qvm::isa::{Instr, OpCode};
use qvm::numbers::of_fault;

const AMPLE: u64 = 1000;
// Document 01's bench step, which the Rust has not: any instruction but Mov, Ldi and Add to GtU is 50, then a register of 16 or more is 16.
const NOT_REGISTER: u64 = 50;
const BAD_REGISTER: u64 = 16;

type File = [u64; 16];

/// How many registers a register operation names; none for any other instruction.
fn named(opcode: u8) -> Option<usize> {
    match OpCode::from_byte(opcode).expect("an opcode") {
        OpCode::Ldi => Some(1),
        OpCode::Mov | OpCode::Not => Some(2),
        OpCode::DivW | OpCode::RemW => Some(6),
        op if (OpCode::Add as u8..=OpCode::GtU as u8).contains(&(op as u8)) => Some(3),
        _ => None,
    }
}

/// The file and the number that the Rust gives for one instruction.
fn run(file: File, instruction: &[u8]) -> (File, u64) {
    let mut code = Vec::new();
    for (d, imm) in (0..).zip(file) {
        Instr::Ldi { d, imm }.encode(&mut code);
    }
    code.extend_from_slice(instruction);
    Instr::Halt.encode(&mut code);
    match Interpreter::for_unchecked_program(&code, &[], AMPLE).run() {
        Ok(outcome) => (outcome.regs, 0),
        Err(fault) => (file, of_fault(fault).0),
    }
}

fn step(file: File, opcode: u8, registers: &[u8], word: u64) -> (File, u64) {
    let Some(count) = named(opcode) else {
        return (file, NOT_REGISTER);
    };
    let registers = &registers[..count];
    if registers.iter().any(|r| *r >= 16) {
        return (file, BAD_REGISTER);
    }
    let mut instruction = vec![opcode];
    instruction.extend_from_slice(registers);
    if opcode == OpCode::Ldi as u8 {
        instruction.extend_from_slice(&word.to_be_bytes());
    }
    run(file, &instruction)
}

/// A step: opcode (1), six registers (1 each), a word (8).
pub fn line(input: &mut Input) -> Option<String> {
    let mut file = [0; 16];
    let mut lines = Vec::new();
    while !input.rest.is_empty() {
        let opcode = input.u8()?;
        let registers = input.bytes(6)?;
        let word = input.u64()?;
        let (after, number) = step(file, opcode, registers, word);
        file = after;
        let spaced = |words: Vec<String>| words.join(" ");
        let named = spaced(registers.iter().map(u8::to_string).collect());
        let held = spaced(file.iter().map(u64::to_string).collect());
        lines.push(format!("{opcode} {named} {word}: {number} {held}"));
    }
    Some(lines.join("\n"))
}
