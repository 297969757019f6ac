//! The three that run the same work: the proved library, the fast runner and the clear program.

use crate::board::{self, IMAGE};
use crate::fast;
use crate::writes::Write;
use model::Coprocessor;

/// A state, as the proved library and as the independent program keep it.
#[derive(Clone)]
pub struct State {
    pub image: [u8; IMAGE],
    pub record: Coprocessor,
}

impl State {
    /// A fresh state of both after some writes, each accepted by both.
    pub fn after(size: u32, writes: &[Write]) -> State {
        let mut image = [0; IMAGE];
        assert_eq!(board::fresh(&mut image, size), 0);
        let (record, refusal) = Coprocessor::fresh(size);
        assert_eq!(refusal, 0);
        State { image, record }.then(writes)
    }

    /// The state after some more writes.
    pub fn then(&self, writes: &[Write]) -> State {
        let mut state = self.clone();
        for (offset, length, value) in writes {
            let refusal = board::write(&mut state.image, *offset, *length, *value);
            assert_eq!(refusal, 0);
            assert_eq!(state.record.write(*offset, *length, *value), 0);
        }
        assert_eq!(image_of(&state.record), state.image);
        state
    }
}

/// The image of a record.
pub fn image_of(record: &Coprocessor) -> [u8; IMAGE] {
    let mut image = [0; IMAGE];
    assert_eq!(record.save(&mut image), 0);
    image
}

/// One that takes up a state, writes registers and runs.
pub trait Runner {
    /// The runner at a state.
    fn at(state: &State) -> Self;
    /// Takes up a state.
    fn take(&mut self, state: &State);
    /// Writes registers: the refusal.
    fn write(&mut self, write: Write) -> u32;
    /// Runs the drawing in hand to its end: the refusal and the positions done.
    fn run(&mut self, memory: &mut [u8]) -> (u32, u32);
    /// The image of its state.
    fn image(&self) -> [u8; IMAGE];
}

/// The proved library.
pub struct Proved([u8; IMAGE]);

impl Runner for Proved {
    fn at(state: &State) -> Proved {
        Proved(state.image)
    }

    fn take(&mut self, state: &State) {
        self.0 = state.image;
    }

    fn write(&mut self, (offset, length, value): Write) -> u32 {
        board::write(&mut self.0, offset, length, value)
    }

    fn run(&mut self, memory: &mut [u8]) -> (u32, u32) {
        board::run(&mut self.0, memory, u32::MAX)
    }

    fn image(&self) -> [u8; IMAGE] {
        self.0
    }
}

/// The independent program, with its fast runner or its clear one.
pub struct Plain<const IS_FAST: bool>(Coprocessor);

impl<const IS_FAST: bool> Runner for Plain<IS_FAST> {
    fn at(state: &State) -> Plain<IS_FAST> {
        Plain(state.record.clone())
    }

    fn take(&mut self, state: &State) {
        self.0.clone_from(&state.record);
    }

    fn write(&mut self, (offset, length, value): Write) -> u32 {
        self.0.write(offset, length, value)
    }

    fn run(&mut self, memory: &mut [u8]) -> (u32, u32) {
        if IS_FAST {
            fast::run(&mut self.0, memory, u32::MAX)
        } else {
            self.0.run(memory, u32::MAX)
        }
    }

    fn image(&self) -> [u8; IMAGE] {
        image_of(&self.0)
    }
}
