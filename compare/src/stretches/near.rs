//! How far the bytes that a stretch reads lie from those that it draws into.

use super::places::{self, Place};
use super::tally::Tally;
use model::Coprocessor;
use std::ops::RangeInclusive;

const DISTANCES: [&str; 9] = [
    "far before",
    "before with one byte between",
    "next before",
    "before with one byte shared",
    "with more bytes shared",
    "behind with one byte shared",
    "next behind",
    "behind with one byte between",
    "far behind",
];

/// The place among the distances of bytes that are shared.
const SHARED: usize = 4;

/// Those read by their distance to those drawn into, both ways.
pub fn tally(title: &'static str) -> Tally {
    Tally::both_ways(title, &DISTANCES)
}

/// Counts the next positions, so many of which would be a stretch that reads from this pixel on.
pub fn note(tally: &mut Tally, state: &Coprocessor, read: Place, length: u32) {
    let x_sign = state.registers.fields().x_sign();
    let drawn = places::destination(&state.registers).bytes(length, x_sign);
    let distance = distance(&read.bytes(length, x_sign), &drawn);
    tally.note_way(x_sign < 0, distance, 1);
}

/// The place among the distances of the bytes read from those drawn into.
fn distance(read: &RangeInclusive<u64>, drawn: &RangeInclusive<u64>) -> usize {
    // How many bytes one must go to come from the last of those before to the first of those behind.
    let steps = |before: &RangeInclusive<u64>, behind: &RangeInclusive<u64>| {
        let is_before = before.start() < behind.start() && before.end() < behind.end();
        let steps = behind.start().checked_sub(*before.end())?;
        is_before.then_some(steps.min(3) as usize)
    };
    match (steps(read, drawn), steps(drawn, read)) {
        (Some(before), _) => SHARED - 1 - before,
        (_, Some(behind)) => SHARED + 1 + behind,
        _ => SHARED,
    }
}
