//! Other coprocessors, each with a size and a drawing of its own, to which states are carried.

use crate::memories::Memories;
use crate::pair::Pair;
use crate::random::Random;
use crate::states;
use model::image;

const COUNT: usize = 24;

/// The other coprocessors.
pub struct Others {
    pairs: Vec<Pair>,
}

impl Others {
    /// Random ones, each in the middle of a drawing.
    pub fn new(random: &mut Random) -> Result<Others, String> {
        let mut pairs: Vec<Pair> = Vec::new();
        while pairs.len() < COUNT {
            let state = states::any(random);
            let is_known = pairs.iter().any(|other| other.plain.size == state.size);
            if state.drawing.is_unfinished() && !is_known {
                let (mut pair, _) = Pair::fresh(1)?;
                pair.load(&image::of(&state), &mut Memories::of(&[]))?;
                pairs.push(pair);
            }
        }
        Ok(Others { pairs })
    }

    /// One of another size.
    pub fn of_another_size(&self, random: &mut Random, size: u32) -> &Pair {
        let place = random.below(COUNT as u32) as usize;
        match &self.pairs[place] {
            pair if pair.plain.size != size => pair,
            _ => &self.pairs[(place + 1) % COUNT],
        }
    }

    /// The state of a pair, carried to one of these.
    pub fn carried(
        &self,
        random: &mut Random,
        pair: &Pair,
        memories: &mut Memories,
    ) -> Result<Pair, String> {
        let mut other = self.of_another_size(random, pair.plain.size).clone();
        match other.load(&pair.save()?, memories)? {
            0 => Ok(other),
            refusal => Err(format!("a saved state did not load: {refusal}")),
        }
    }
}
