//! A drawing in hand, as a state and its memory.

use super::counts::Loads;
use crate::memories::Memories;
use crate::others::Others;
use crate::pair::Pair;
use crate::random::Random;
use crate::random_drawings::RandomDrawing;

/// A state and its memory.
#[derive(Clone)]
pub struct Board {
    pub pair: Pair,
    pub memories: Memories,
}

impl Board {
    /// The drawing just begun.
    pub fn begin(drawing: &RandomDrawing) -> Result<Board, String> {
        let (mut pair, _) = Pair::fresh(drawing.memory.len() as u32)?;
        for (offset, length, value) in &drawing.writes {
            match pair.write(*offset, *length, *value)? {
                0 => {}
                refusal => return Err(format!("write {offset:X} was refused with {refusal}")),
            }
        }
        let memories = Memories::of(&drawing.memory);
        Ok(Board { pair, memories })
    }

    /// Runs, and answers the positions done.
    pub fn run(&mut self, allowance: u32) -> Result<u32, String> {
        match self.pair.run(&mut self.memories, allowance)? {
            (0, done) => Ok(done),
            (refusal, _) => Err(format!("a run was refused with {refusal}")),
        }
    }

    /// Goes on in another coprocessor.
    pub fn carry(
        &mut self,
        random: &mut Random,
        others: &Others,
        loads: &mut Loads,
    ) -> Result<(), String> {
        self.pair = others.carried(random, &self.pair, &mut self.memories)?;
        loads.note(&self.pair);
        Ok(())
    }

    /// That another way of drawing has this state and memory at its end.
    pub fn is_end_of(&self, other: &Board) -> Result<(), String> {
        let is_same =
            self.pair.image() == other.pair.image() && self.memories.plain == other.memories.plain;
        match is_same {
            true => Ok(()),
            false => Err("a cut drawing differs from the whole".to_string()),
        }
    }
}
