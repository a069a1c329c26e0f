//! `arith`: one arithmetic instruction a record, run by the Rust's interpreter.

use crate::input::Input;
use qvm::interp::Interpreter;
use qvm::isa::{Instr, OpCode, Reg};
use qvm::numbers::of_fault;

const AMPLE: u64 = 1000;
// Operands a, b, c, d are in registers 0 to 3; the answer's words go here.
const LOW: Reg = 4;
const HIGH: Reg = 5;

/// The operand bytes: with two words a number, a and c are the high ones.
fn registers(opcode: u8) -> &'static [Reg] {
    match OpCode::from_byte(opcode).expect("an opcode") {
        OpCode::Mov | OpCode::Not => &[LOW, 0],
        OpCode::DivW | OpCode::RemW => &[LOW, HIGH, 1, 0, 3, 2],
        _ => &[LOW, 0, 1],
    }
}

fn program(opcode: u8, operands: [u64; 4]) -> Vec<u8> {
    let mut code = Vec::new();
    for (d, imm) in (0..).zip(operands) {
        Instr::Ldi { d, imm }.encode(&mut code);
    }
    code.push(opcode);
    code.extend_from_slice(registers(opcode));
    Instr::Halt.encode(&mut code);
    code
}

/// A record: opcode (1), then a, b, c, d (8 each).
pub fn line(input: &mut Input) -> Option<String> {
    let opcode = input.u8()?;
    let operands = [input.u64()?, input.u64()?, input.u64()?, input.u64()?];
    let code = program(opcode, operands);
    let (fault, low, high) = match Interpreter::for_unchecked_program(&code, &[], AMPLE).run() {
        Ok(outcome) => (0, outcome.regs[usize::from(LOW)], outcome.regs[usize::from(HIGH)]),
        Err(fault) => (of_fault(fault).0, 0, 0),
    };
    let [a, b, c, d] = operands;
    Some(format!("{opcode} {a} {b} {c} {d}: {fault} {low} {high}"))
}
