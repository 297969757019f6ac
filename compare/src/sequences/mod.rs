//! Random whole sequences of calls: fresh states, writes, reads, runs, images saved, damaged and loaded, and cuts.

mod choices;
mod counts;
mod sequence;

pub use counts::Counts;

use crate::others::Others;
use crate::panics;
use crate::progress::Steps;
use crate::random::Random;
use sequence::Sequence;

/// The sequences from which on every number that a call can answer with must have been met.
const MANY: u64 = 20_000;

/// Compares a sequence of a seed in each step, each with a seed of its own.
pub fn compare(seed: u64, steps: Steps, others: &Others) -> Result<Counts, String> {
    let count = steps.asked;
    let mut counts = Counts::default();
    for number in steps {
        one(seed, number, others, &mut counts, false)?;
    }
    match counts.never_met().filter(|_| count >= MANY) {
        Some(never) => Err(never),
        None => Ok(counts),
    }
}

/// Compares one sequence of a seed, and tells its calls if asked.
pub fn one(
    seed: u64,
    number: u64,
    others: &Others,
    counts: &mut Counts,
    is_told: bool,
) -> Result<(), String> {
    counts.sequences += 1;
    let random = Random::new(Random::new(seed).number().wrapping_add(number));
    let whole = || Sequence::begin(random, others, counts, is_told)?.go_on();
    panics::caught(whole).map_err(|difference| {
        format!("{difference}\nsequence {number} of seed {seed}; `compare seed={seed} only={number}` repeats it alone")
    })
}
