//! In place of crypto.rs: every crypto instruction takes its effect from the next reply row (document 01, "Lent input and what is left").

use std::cell::{Cell, RefCell};
use std::collections::VecDeque;

use qtv_crypto::{ml_dsa, slh_dsa};

use crate::interp::Fault;
use crate::isa::Reg;
use crate::numbers::fault_of;
use crate::state::Machine;

pub const SCHEME_ML_DSA: u64 = 1;
pub const SCHEME_SLH_DSA: u64 = 2;

const fn signed(key: usize, signature: usize) -> u64 {
    (key + signature) as u64
}

pub const ML_DSA_SIGNED_BYTES: u64 = signed(ml_dsa::PUBLIC_KEY_BYTES, ml_dsa::SIGNATURE_BYTES);
pub const SLH_DSA_SIGNED_BYTES: u64 = signed(slh_dsa::PUBLIC_KEY_BYTES, slh_dsa::SIGNATURE_BYTES);
pub const MERKLE_HEADER: u64 = 72;

pub const REPLY_BYTES: usize = 48;
const NO_REGISTER: u8 = 255;

type Reply = [u8; REPLY_BYTES];

thread_local! {
    static REPLIES: RefCell<VecDeque<Reply>> = const { RefCell::new(VecDeque::new()) };
    static MISSING: Cell<bool> = const { Cell::new(false) };
}

/// Replaces the replies that are left by these whole rows.
pub fn lend_replies(rows: &[u8]) {
    let (rows, rest) = rows.as_chunks::<REPLY_BYTES>();
    assert!(rest.is_empty(), "replies are not whole rows");
    REPLIES.set(rows.iter().copied().collect());
    MISSING.set(false);
}

/// Whether a crypto instruction was charged with no reply left: the run's fault is then 47.
pub fn reply_missing() -> bool {
    MISSING.get()
}

fn play(m: &mut Machine) -> Result<(), Fault> {
    let Some(row) = REPLIES.with_borrow_mut(VecDeque::pop_front) else {
        MISSING.set(true);
        return Err(Fault::CryptoFault);
    };
    let [outcome, register, ..] = row;
    if outcome != 0 {
        return Err(fault_of(outcome));
    }
    let value = u64::from_be_bytes(row[2..10].try_into().unwrap());
    let length = usize::from(row[10]);
    let offset = u32::from_be_bytes(row[11..15].try_into().unwrap());
    if register != NO_REGISTER {
        m.set_reg(register, value);
    }
    assert!(
        m.mem_write(offset.into(), &row[15..][..length]),
        "a reply writes outside memory"
    );
    Ok(())
}

macro_rules! played {
    ($($body:ident($($more:ty)?);)*) => {
        $(pub(crate) fn $body(m: &mut Machine, _: Reg, _: Reg, _: Reg $(, _: $more)?) -> Result<(), Fault> {
            play(m)
        })*
    };
}

// merkle_verify's flag chooses between editions; what differs comes with the reply.
played! {
    hash();
    verify_ml();
    verify_slh();
    merkle_verify(bool);
    address();
}
