//! The QVM sources, read unchanged from the folder QVM_SRC; crypto.rs alone is replaced, by a player of reply rows.

// interp.rs catches a panic of a crypto body as fault 13, which would hide a reply that does not play.
#[cfg(panic = "unwind")]
compile_error!("build with -C panic=abort");

pub mod isa {
    mod real {
        include!(concat!(env!("QVM_SRC"), "/crates/qtv-vm/src/isa.rs"));
    }
    pub use real::*;

    use std::cell::Cell;

    thread_local! {
        static DECODES: Cell<u64> = const { Cell::new(0) };
    }

    /// The real decode, counted: a run fetches by it and by nothing else.
    pub fn decode(code: &[u8], pc: usize) -> Result<(Instr, usize), DecodeError> {
        DECODES.set(DECODES.get() + 1);
        real::decode(code, pc)
    }

    /// The decodes since the last call. Opening decodes too: take its count before the run.
    pub fn take_decodes() -> u64 {
        DECODES.take()
    }
}

pub mod abi {
    include!(concat!(env!("QVM_SRC"), "/crates/qtv-vm/src/abi.rs"));
}
pub mod container {
    include!(concat!(env!("QVM_SRC"), "/crates/qtv-vm/src/container.rs"));
}
pub mod interp {
    include!(concat!(env!("QVM_SRC"), "/crates/qtv-vm/src/interp.rs"));

    /// Rows changed, fetched, authorised to read and to write, paid as fresh; bytes of the effect log.
    pub type Sizes = [usize; 6];

    /// A record's data and its trailer.
    fn record_bytes(effect: &Effect) -> usize {
        let (Effect::Transfer { to: data, .. } | Effect::Event { data, .. }) = effect;
        data.len() + 13
    }

    impl Interpreter<'_> {
        fn sizes(&self) -> Sizes {
            [
                self.dirty.len(),
                self.loaded.len(),
                self.keyed_authorized_reads.len(),
                self.keyed_authorized_writes.len(),
                self.fresh_charged.len(),
                self.effects.iter().map(record_bytes).sum(),
            ]
        }

        /// The fetches up to the first finished step that leaves more than there is room for.
        /// `run` shows nothing of its steps, so its loop stands here again; no other answer is taken from it.
        pub fn overflow(mut self, rooms: &Sizes) -> Option<u64> {
            for fetches in 1.. {
                let (instr, len) = decode(self.code, self.machine.pc as usize).ok()?;
                self.charge(crate::meter::cost(instr.opcode())).ok()?;
                self.machine.pc += len as u32;
                match self.step(instr).ok()? {
                    Step::Next => {}
                    Step::Halt => return None,
                    Step::JumpTo(target) => self.machine.pc = target,
                }
                if self.sizes().iter().zip(rooms).any(|(size, room)| size > room) {
                    return Some(fetches);
                }
            }
            None
        }
    }
}
pub mod meter {
    include!(concat!(env!("QVM_SRC"), "/crates/qtv-vm/src/meter.rs"));
}
pub mod state {
    include!(concat!(env!("QVM_SRC"), "/crates/qtv-vm/src/state.rs"));
}

#[path = "player.rs"]
pub mod crypto;
pub mod numbers;
