//! A safe wrapper over the C functions (include/qvm.h): calls without loader and replies.

#[link(name = "qvm", kind = "static")]
extern "C" {
    fn qvm_for_entry(
        container: *const u8, container_len: usize, selector: u32, limit: u64, genesis: u32, ml_signed: u64, slh_signed: u64,
        store: *const u8, store_len: usize, has_loader: u8, loader: *const u8, loader_len: usize, replies: *const u8, replies_len: usize,
        preload: *const u8, preload_len: usize, memory: *mut u8, memory_len: usize, stack: *mut u64, stack_len: usize,
        starts: *mut u8, starts_len: usize, changes: *mut u8, changes_len: usize, fetched: *mut u8, fetched_len: usize,
        reads: *mut u8, reads_len: usize, writes: *mut u8, writes_len: usize, fresh: *mut u8, fresh_len: usize,
        log: *mut u8, log_len: usize, answer: *mut u64, answer_len: usize,
    ) -> u32;
    fn qvm_verify(container: *const u8, container_len: usize, answer: *mut u64, answer_len: usize) -> u32;
    fn qvm_canonical_bytes(
        code: *const u8, code_len: usize, constants: *const u64, constants_len: usize, entries: *const u64, entries_len: usize,
        out: *mut u8, out_len: usize, answer: *mut u64, answer_len: usize,
    ) -> u32;
    fn qvm_change_list(
        changes: *const u8, changes_len: usize, count: u64, store: *const u8, store_len: usize, has_loader: u8,
        loader: *const u8, loader_len: usize, out: *mut u8, out_len: usize, answer: *mut u64, answer_len: usize,
    ) -> u32;
}

const ROW: usize = 40;
const KEY: usize = 32;
/// What is absent still needs a pointer.
const NONE: &[u8] = &[];

/// A container's canonical bytes, or the refusal's number.
pub fn canonical_bytes(code: &[u8], constants: &[u64], entries: &[u64]) -> Result<Vec<u8>, u32> {
    let mut out = vec![0; 12 + code.len() + 8 * (constants.len() + entries.len())];
    let mut answer = [0; 2];
    let number = unsafe {
        qvm_canonical_bytes(
            code.as_ptr(), code.len(), constants.as_ptr(), constants.len(), entries.as_ptr(), entries.len(),
            out.as_mut_ptr(), out.len(), answer.as_mut_ptr(), answer.len(),
        )
    };
    out.truncate(answer[1] as usize);
    if number == 0 { Ok(out) } else { Err(number) }
}

/// Number, code bytes, entries.
pub fn verify(container: &[u8]) -> (u32, u64, u64) {
    let mut answer = [0; 5];
    let number = unsafe { qvm_verify(container.as_ptr(), container.len(), answer.as_mut_ptr(), answer.len()) };
    (number, answer[2], answer[4])
}

pub struct Call<'a> {
    pub container: &'a [u8],
    pub selector: u32,
    pub limit: u64,
    pub store: &'a [u8],
    pub preload: &'a [u8],
}

pub struct Answer {
    pub number: u32,
    pub fetches: u64,
    pub used: u64,
    changes: u64,
    log: usize,
    pub registers: [u64; 16],
}

/// The buffers that a call works in, to be used again for the next one.
pub struct Lent {
    memory: Vec<u8>,
    stack: Vec<u64>,
    starts: Vec<u8>,
    rows: [Vec<u8>; 2],
    keys: [Vec<u8>; 3],
    log: Vec<u8>,
}

impl Lent {
    /// Room for so many keys in each table.
    pub fn new(keys: usize) -> Self {
        Lent {
            memory: vec![0; 65536],
            stack: vec![0; 1024],
            starts: vec![0; 8192],
            rows: std::array::from_fn(|_| vec![0; keys * ROW]),
            keys: std::array::from_fn(|_| vec![0; keys * KEY]),
            log: vec![0; 1 << 20],
        }
    }

    pub fn run(&mut self, call: &Call) -> Answer {
        let mut words = [0; 23];
        let [changes, fetched] = &mut self.rows;
        let [reads, writes, fresh] = &mut self.keys;
        let number = unsafe {
            qvm_for_entry(
                call.container.as_ptr(), call.container.len(), call.selector, call.limit, 0, 0, 0, call.store.as_ptr(), call.store.len(),
                0, NONE.as_ptr(), 0, NONE.as_ptr(), 0, call.preload.as_ptr(), call.preload.len(),
                self.memory.as_mut_ptr(), self.memory.len(), self.stack.as_mut_ptr(), self.stack.len(),
                self.starts.as_mut_ptr(), self.starts.len(), changes.as_mut_ptr(), changes.len(), fetched.as_mut_ptr(), fetched.len(),
                reads.as_mut_ptr(), reads.len(), writes.as_mut_ptr(), writes.len(), fresh.as_mut_ptr(), fresh.len(),
                self.log.as_mut_ptr(), self.log.len(), words.as_mut_ptr(), words.len(),
            )
        };
        let registers = words[7..].try_into().unwrap();
        Answer { number, fetches: words[2], used: words[3], changes: words[5], log: words[6] as usize, registers }
    }

    pub fn log(&self, answer: &Answer) -> &[u8] {
        &self.log[..answer.log]
    }

    /// The rows of the keys that a call changed, over the store that it was given.
    pub fn change_list(&self, answer: &Answer, store: &[u8]) -> Vec<u8> {
        let changes = &self.rows[0];
        let mut out = vec![0; changes.len()];
        let mut words = [0; 2];
        unsafe {
            qvm_change_list(
                changes.as_ptr(), changes.len(), answer.changes, store.as_ptr(), store.len(), 0, NONE.as_ptr(), 0,
                out.as_mut_ptr(), out.len(), words.as_mut_ptr(), words.len(),
            )
        };
        out.truncate(words[1] as usize * ROW);
        out
    }
}
