//! What was met of copies in another phase.

use super::near;
use super::parts::Parts;
use super::places;
use super::rule::Cut;
use super::taken::{blend, length_of, BLENDS, CUTS, LENGTHS};
use super::tally::{self, Tally};
use model::pixels::Order;
use model::Coprocessor;
use std::collections::BTreeSet;
use std::fmt;

/// The pixels of a byte that have more than one place there.
const IN_BYTE: [u32; 3] = [8, 4, 2];

/// The pairs of different places of a source and a destination pixel, in each order and both ways.
const PAIRS: usize = 4 * (8 * 7 + 4 * 3 + 2);

/// What was met.
pub struct Slid {
    inks: Tally,
    mixes: Tally,
    cuts: Tally,
    lengths: Tally,
    further: Tally,
    /// Order, way, pixels of a byte, and the places of the first source and destination pixel.
    pairs: BTreeSet<(bool, bool, u32, u32, u32)>,
    pub near: Tally,
}

impl Default for Slid {
    fn default() -> Slid {
        let further = |in_byte: u32| (1..in_byte).map(move |one| format!("{one} of {in_byte}"));
        Slid {
            inks: Tally::both_ways("positions copied in another phase", &BLENDS),
            mixes: tally::of_mixes("positions copied in another phase, by mix"),
            cuts: Tally::both_ways(
                "stretches copied in another phase, by what ends them",
                &CUTS,
            ),
            lengths: Tally::both_ways("stretches copied in another phase", &LENGTHS),
            further: Tally::new(
                "stretches copied in another phase, by how many of a byte's pixels further on the source lies",
                IN_BYTE.into_iter().flat_map(further),
            ),
            pairs: BTreeSet::new(),
            near: near::tally("copies in another phase, by where the bytes of the source lie"),
        }
    }
}

impl Slid {
    /// Counts the stretch of so many positions that comes next.
    pub fn note(&mut self, state: &Coprocessor, length: u32, cut: Cut) {
        let registers = &state.registers;
        let is_back = registers.fields().x_sign() < 0;
        let [from, to] = [places::source(registers), places::destination(registers)];
        let in_byte = 8 / to.map.bits();
        let [first, second] = [from.in_byte(), to.in_byte()];
        let parts = Parts::of(length, second, in_byte, is_back);

        self.inks.note_way(is_back, blend(registers), length);
        self.mixes.note(registers.foreground_mix.into(), length);
        self.cuts.note_way(is_back, cut as usize, 1);
        self.lengths
            .note_way(is_back, length_of(&parts, in_byte), 1);
        let smaller: u32 = IN_BYTE
            .iter()
            .take_while(|one| **one != in_byte)
            .map(|one| one - 1)
            .sum();
        let further = (first + in_byte - second) % in_byte;
        self.further.note((smaller + further - 1) as usize, 1);
        let is_motorola = to.map.order() == Order::Motorola;
        self.pairs
            .insert((is_motorola, is_back, in_byte, first, second));
    }

    pub fn positions(&self) -> u64 {
        self.inks.sum()
    }

    pub fn stretches(&self) -> u64 {
        self.cuts.sum()
    }

    /// What was never met.
    pub fn never_met(&self) -> Option<String> {
        let pairs = PAIRS - self.pairs.len();
        let never = (pairs > 0).then(|| format!("{pairs} pairs of places were never met"));
        never.or_else(|| tally::never_met(&self.tallies()))
    }

    fn tallies(&self) -> [&Tally; 6] {
        [
            &self.inks,
            &self.mixes,
            &self.cuts,
            &self.lengths,
            &self.further,
            &self.near,
        ]
    }
}

impl fmt::Display for Slid {
    fn fmt(&self, lines: &mut fmt::Formatter) -> fmt::Result {
        tally::write_all(lines, &self.tallies())?;
        write!(
            lines,
            "\n  {} of {PAIRS} orders, ways and pairs of places in a byte of source and destination in another phase",
            self.pairs.len()
        )
    }
}
