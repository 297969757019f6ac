//! Drawings at the borders between stretches, many positions of a row, line or code at once, and positions one by one.
//!
//! No result tells which were taken; the rule that does is written down here, so that every kind is known to have been met.

mod apart;
mod barred;
mod blocks;
mod borders;
mod counts;
mod hindered;
mod near;
mod overlaps;
mod patterned;
mod phases;
mod slid;
mod strokes;
mod ways;

pub mod bars;
pub mod cases;
pub mod parts;
pub mod places;
pub mod plans;
pub mod reads;
pub mod rule;
pub mod taken;
pub mod tally;

use crate::drawings::Board;
use crate::others::Others;
use crate::panics;
use crate::progress::Steps;
use crate::random::Random;
use counts::Counts;

/// The drawings from which on every kind must have been met.
const MANY: u64 = cases::ALL_RAGGED;

/// One in so many drawings is not begun at its first position.
const ELSEWHERE: u32 = 8;

/// Compares a drawing in each step, of all families in turn.
pub(crate) fn compare(
    random: &mut Random,
    steps: Steps,
    others: &Others,
) -> Result<Counts, String> {
    let count = steps.asked;
    let mut counts = Counts::default();
    for number in steps {
        let (family, plan) = cases::plan(random, number);
        let drawing = plan.drawing(random);
        let mut whole = || {
            let mut begun = Board::begin(&drawing)?;
            if random.once_in(ELSEWHERE) {
                ways::put_elsewhere(random, &mut begun, &mut counts)?;
            }
            counts.note_start(family, &plan, &begun.pair.plain);
            ways::all(random, &begun, others, &mut counts)
        };
        panics::caught(&mut whole)
            .map_err(|difference| format!("{difference}\nin {plan:?}\n{drawing:?}"))?;
    }
    match counts.never_met().filter(|_| count >= MANY) {
        Some(never) => Err(never),
        None => Ok(counts),
    }
}
