//! Document 01's numbers and arguments of the Rust's refusals.

use crate::container::VerifyError;
use crate::interp::Fault;
use crate::isa::DecodeError;

/// A fault's number is its place here, counted from 1.
pub const FAULTS: [Fault; 14] = [
    Fault::OutOfMeter,
    Fault::Overflow,
    Fault::DivByZero,
    Fault::StackOverflow,
    Fault::StackUnderflow,
    Fault::BadMemory,
    Fault::BadJump,
    Fault::BadConst,
    Fault::UnknownSelector,
    Fault::BadScheme,
    Fault::EffectsTooLarge,
    Fault::UndeclaredSlot,
    Fault::CryptoFault,
    Fault::Malformed,
];

/// A number and its argument.
pub type Refusal = (u64, u64);

pub fn fault_of(number: u8) -> Fault {
    FAULTS[usize::from(number) - 1]
}

pub fn of_fault(fault: Fault) -> Refusal {
    match fault {
        Fault::Decode(error) => of_decode(error),
        _ => (1 + FAULTS.iter().position(|f| *f == fault).unwrap() as u64, 0),
    }
}

pub fn of_decode(error: DecodeError) -> Refusal {
    match error {
        DecodeError::UnknownOpcode(byte) => (15, byte.into()),
        DecodeError::BadRegister(byte) => (16, byte.into()),
        DecodeError::Truncated => (17, 0),
    }
}

pub fn of_verify(error: VerifyError) -> Refusal {
    match error {
        VerifyError::CodeTooLarge => (21, 0),
        VerifyError::ConstsTooLarge => (22, 0),
        VerifyError::EntriesTooLarge => (23, 0),
        VerifyError::UndecodableCode(place) => (24, place as u64),
        VerifyError::ConstIndexOutOfRange(index) => (25, index.into()),
        VerifyError::MisalignedTarget(target) => (26, target.into()),
        VerifyError::EntryOffsetMisaligned(selector) => (27, u32::from_be_bytes(selector).into()),
        VerifyError::DuplicateSelector(selector) => (28, u32::from_be_bytes(selector).into()),
        VerifyError::AccessListTooLarge(selector) => (29, u32::from_be_bytes(selector).into()),
    }
}
