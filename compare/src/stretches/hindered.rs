//! What was met of drawings without stretches.

use super::bars::{self, Bar};
use super::tally::{self, Tally};
use model::Registers;
use std::fmt;

/// Positions by what bars them: of blocks and fills, of blocks with a pattern map, and of lines and codes.
pub struct Hindered {
    tallies: [Tally; 3],
}

/// The bars of each.
const BARS: [&[Bar]; 3] = [&bars::OF_BLOCKS, &bars::OF_PATTERNS, &bars::OF_STROKES];

const TITLES: [&str; 3] = [
    "positions one by one in a block or fill without stretches, for",
    "positions one by one in a block with a pattern map and without stretches, for",
    "positions one by one in a line or codes without strokes, for",
];

impl Default for Hindered {
    fn default() -> Hindered {
        let names = |sort: usize| BARS[sort].iter().map(Bar::name);
        let tallies = [0, 1, 2].map(|sort| Tally::new(TITLES[sort], names(sort)));
        Hindered { tallies }
    }
}

impl Hindered {
    /// Counts so many positions of a drawing with a bar.
    pub fn note(&mut self, registers: &Registers, bar: Bar, positions: u32) {
        let sort = match bars::is_stroke(registers) {
            true => 2,
            false => usize::from(bar != Bar::Fill && registers.fields().uses_pattern()),
        };
        let place = BARS[sort].iter().position(|one| *one == bar);
        self.tallies[sort].note(place.expect("it is a bar of such drawings"), positions);
    }

    pub fn positions(&self) -> u64 {
        self.tallies.iter().map(Tally::sum).sum()
    }

    /// What was never met.
    pub fn never_met(&self) -> Option<String> {
        tally::never_met(&self.tallies.each_ref())
    }
}

impl fmt::Display for Hindered {
    fn fmt(&self, lines: &mut fmt::Formatter) -> fmt::Result {
        tally::write_all(lines, &self.tallies.each_ref())
    }
}
