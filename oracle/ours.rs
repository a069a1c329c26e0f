//! The proved library, through its C functions (include/qvm.h), over buffers that are filled before each call.

use crate::judge::{Call, BUFFERS, FILL, STACK};
use qvm::container::{selector, GENESIS_SIGNATURE};
use qvm::crypto::{ML_DSA_SIGNED_BYTES, SLH_DSA_SIGNED_BYTES};

/// What every lent word is before a call.
pub const WORD: u64 = u64::from_ne_bytes([FILL; 8]);
/// Elements past a buffer's end that no call may touch.
pub const GUARD: usize = 8;

macro_rules! c_functions {
    ($($name:ident($($first:ident: $type:ty),*);)*) => {
        #[link(name = "qvm", kind = "static")]
        extern "C" {
            $(fn $name(
                container: *const u8, container_len: usize, $($first: $type,)* limit: u64, genesis: u32, ml_signed: u64, slh_signed: u64,
                store: *const u8, store_len: usize, has_loader: u8, loader: *const u8, loader_len: usize,
                replies: *const u8, replies_len: usize, preload: *const u8, preload_len: usize,
                memory: *mut u8, memory_len: usize, stack: *mut u64, stack_len: usize, starts: *mut u8, starts_len: usize,
                changes: *mut u8, changes_len: usize, fetched: *mut u8, fetched_len: usize, reads: *mut u8, reads_len: usize,
                writes: *mut u8, writes_len: usize, fresh: *mut u8, fresh_len: usize, log: *mut u8, log_len: usize,
                answer: *mut u64, answer_len: usize,
            ) -> u32;)*
        }
    };
}
c_functions! {
    qvm_for_entry(selector: u32);
    qvm_for_genesis();
}

#[link(name = "qvm", kind = "static")]
extern "C" {
    fn qvm_verify(container: *const u8, container_len: usize, answer: *mut u64, answer_len: usize) -> u32;
    fn qvm_entry_offset(container: *const u8, container_len: usize, selector: u32, answer: *mut u64, answer_len: usize) -> u32;
    fn qvm_canonical_bytes(
        code: *const u8, code_len: usize, constants: *const u64, constants_len: usize, entries: *const u64, entries_len: usize,
        out: *mut u8, out_len: usize, answer: *mut u64, answer_len: usize,
    ) -> u32;
    fn qvm_change_list(
        changes: *const u8, changes_len: usize, count: u64, store: *const u8, store_len: usize, has_loader: u8,
        loader: *const u8, loader_len: usize, out: *mut u8, out_len: usize, answer: *mut u64, answer_len: usize,
    ) -> u32;
}

/// The lent buffers, each with its guard; the stack is of words.
pub struct Lent {
    pub bytes: [Vec<u8>; BUFFERS],
    pub stack: Vec<u64>,
    pub answer: Vec<u64>,
    pub returned: u32,
}

impl Lent {
    pub fn new() -> Self {
        Lent { bytes: Default::default(), stack: vec![], answer: vec![], returned: 0 }
    }

    pub fn fill(&mut self, call: &Call, answer: usize) {
        for (buffer, size) in self.bytes.iter_mut().zip(call.sizes) {
            buffer.clear();
            buffer.resize(size + GUARD, FILL);
        }
        self.bytes[STACK].clear();
        self.stack.clear();
        self.stack.resize(call.sizes[STACK] + GUARD, WORD);
        self.answer.clear();
        self.answer.resize(answer + GUARD, WORD);
    }

    /// Runs the call over the buffers as they are; `fill` has given them their sizes.
    pub fn run(&mut self, call: &Call, answer: usize) {
        let genesis = u32::from_be_bytes(selector(GENESIS_SIGNATURE));
        let [memory, _, starts, changes, fetched, reads, writes, fresh, log] = &mut self.bytes;
        macro_rules! run {
            ($name:ident($($first:expr),*)) => {
                unsafe {
                    $name(
                        call.container.as_ptr(), call.container.len(), $($first,)* call.limit, genesis, ML_DSA_SIGNED_BYTES,
                        SLH_DSA_SIGNED_BYTES, call.store.as_ptr(), call.store.len(), call.present.into(), call.loader.as_ptr(),
                        call.loader.len(), call.replies.as_ptr(), call.replies.len(), call.preload.as_ptr(), call.preload.len(),
                        memory.as_mut_ptr(), call.sizes[0], self.stack.as_mut_ptr(), call.sizes[1], starts.as_mut_ptr(), call.sizes[2],
                        changes.as_mut_ptr(), call.sizes[3], fetched.as_mut_ptr(), call.sizes[4], reads.as_mut_ptr(), call.sizes[5],
                        writes.as_mut_ptr(), call.sizes[6], fresh.as_mut_ptr(), call.sizes[7], log.as_mut_ptr(), call.sizes[8],
                        self.answer.as_mut_ptr(), answer,
                    )
                }
            };
        }
        self.returned = if call.genesis { run!(qvm_for_genesis()) } else { run!(qvm_for_entry(u32::from_be_bytes(call.selector))) };
    }
}

/// The number returned and all of the answer's words.
pub type Told = (u32, Vec<u64>);

pub fn verify(container: &[u8], words: usize) -> Told {
    let mut answer = vec![WORD; words + GUARD];
    let returned = unsafe { qvm_verify(container.as_ptr(), container.len(), answer.as_mut_ptr(), words) };
    (returned, answer)
}

pub fn entry_offset(container: &[u8], selector: [u8; 4], words: usize) -> Told {
    let mut answer = vec![WORD; words + GUARD];
    let selector = u32::from_be_bytes(selector);
    let returned = unsafe { qvm_entry_offset(container.as_ptr(), container.len(), selector, answer.as_mut_ptr(), words) };
    (returned, answer)
}

/// The same, with all of the output.
pub fn canonical_bytes(code: &[u8], constants: &[u64], entries: &[u64], room: usize, words: usize) -> (Told, Vec<u8>) {
    let (mut answer, mut out) = (vec![WORD; words + GUARD], vec![FILL; room + GUARD]);
    let returned = unsafe {
        qvm_canonical_bytes(
            code.as_ptr(), code.len(), constants.as_ptr(), constants.len(), entries.as_ptr(), entries.len(),
            out.as_mut_ptr(), room, answer.as_mut_ptr(), words,
        )
    };
    ((returned, answer), out)
}

pub fn change_list(call: &Call, changes: &[u8], count: u64, room: usize, words: usize) -> (Told, Vec<u8>) {
    let (mut answer, mut out) = (vec![WORD; words + GUARD], vec![FILL; room + GUARD]);
    let returned = unsafe {
        qvm_change_list(
            changes.as_ptr(), changes.len(), count, call.store.as_ptr(), call.store.len(), call.present.into(),
            call.loader.as_ptr(), call.loader.len(), out.as_mut_ptr(), room, answer.as_mut_ptr(), words,
        )
    };
    ((returned, answer), out)
}
