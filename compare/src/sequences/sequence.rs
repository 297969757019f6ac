//! One random sequence: its calls, each made on both sides, compared and counted.

use super::counts::{Call, Counts};
use crate::memories::Memories;
use crate::others::Others;
use crate::pair::Pair;
use crate::random::Random;
use crate::random_drawings::{self, FUNCTIONS};
use crate::set_ups;
use crate::writes::Write;

/// A sequence as far as it has come.
pub struct Sequence<'a> {
    pub random: Random,
    pub pair: Pair,
    memories: Memories,
    /// Lent to runs that are to be refused for its length.
    misfit: Memories,
    /// Writes of a set-up that are still to come, the next one last.
    pub to_come: Vec<Write>,
    /// The image of an earlier state.
    pub kept: Vec<u8>,
    others: &'a Others,
    counts: &'a mut Counts,
    /// Whether each call is printed.
    is_told: bool,
}

impl<'a> Sequence<'a> {
    /// A fresh state, with the writes of a drawing to come or of any size.
    pub fn begin(
        mut random: Random,
        others: &'a Others,
        counts: &'a mut Counts,
        is_told: bool,
    ) -> Result<Sequence<'a>, String> {
        let (size, to_come) = if random.once_in(4) {
            let function = random.pick(&FUNCTIONS);
            let mut drawing = random_drawings::drawing(&mut random, function);
            drawing.writes.reverse();
            (drawing.memory.len() as u32, drawing.writes)
        } else {
            (set_ups::size(&mut random), Vec::new())
        };
        let (pair, _) = Pair::fresh(1)?;
        let kept = pair.save()?;
        let mut sequence = Sequence {
            random,
            pair,
            memories: Memories::of(&[]),
            misfit: Memories::of(&[]),
            to_come,
            kept,
            others,
            counts,
            is_told,
        };
        sequence.renew(size)?;
        Ok(sequence)
    }

    pub fn renew(&mut self, size: u32) -> Result<(), String> {
        let refusal = self.pair.renew(size)?;
        self.fit_memories();
        self.note(Call::Fresh, refusal, &[size])
    }

    pub fn write(&mut self, (offset, length, value): Write) -> Result<(), String> {
        let refusal = self.pair.write(offset, length, value)?;
        if refusal == 0 {
            self.counts.note_start(&self.pair.plain, offset, length);
        }
        self.note(Call::Write, refusal, &[offset, length, value])
    }

    pub fn read(&mut self, offset: u32, length: u32) -> Result<(), String> {
        let (refusal, value) = self.pair.read(offset, length)?;
        self.note(Call::Read, refusal, &[offset, length, value])
    }

    pub fn run(&mut self, allowance: u32) -> Result<(), String> {
        let before = self.memories.plain.clone();
        let (refusal, done) = self.pair.run(&mut self.memories, allowance)?;
        self.counts.positions += u64::from(done);
        self.counts.runs[0] += u64::from(done > 0);
        self.counts.runs[1] += u64::from(self.memories.plain != before);
        self.note(Call::Run, refusal, &[allowance, done])
    }

    /// A run that is lent a memory of this length and not the state's.
    pub fn run_misfit(&mut self, length: u32, allowance: u32) -> Result<(), String> {
        self.misfit.set_length(&mut self.random, length);
        let (refusal, done) = self.pair.run(&mut self.misfit, allowance)?;
        self.note(Call::Run, refusal, &[allowance, done])
    }

    /// Keeps the image of the state.
    pub fn save(&mut self) -> Result<(), String> {
        self.kept = self.pair.save()?;
        self.note(Call::Save, 0, &[])
    }

    pub fn load(&mut self, image: &[u8]) -> Result<(), String> {
        if self.is_told {
            println!("image {image:02X?}");
        }
        let refusal = self.pair.load(image, &mut self.memories)?;
        self.counts.loaded_inside += u64::from(refusal == 0 && self.pair.is_inside());
        self.fit_memories();
        self.note(Call::Load, refusal, &[])
    }

    /// Goes on in another coprocessor.
    pub fn carry(&mut self) -> Result<(), String> {
        let memories = &mut self.memories;
        self.pair = self
            .others
            .carried(&mut self.random, &self.pair, memories)?;
        self.counts.carried += 1;
        self.counts.loaded_inside += u64::from(self.pair.is_inside());
        self.note(Call::Load, 0, &[])
    }

    /// Gives the memories the length of the state in hand.
    fn fit_memories(&mut self) {
        let size = self.pair.plain.size;
        self.memories.set_length(&mut self.random, size);
    }

    /// Counts a call by its answer, and tells it if asked.
    fn note(&mut self, call: Call, refusal: u32, numbers: &[u32]) -> Result<(), String> {
        if self.is_told {
            println!("{call:?} {numbers:X?}: {refusal}");
        }
        self.counts.note_call(call, refusal)
    }
}
