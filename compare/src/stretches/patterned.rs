//! What was met of stretches with a pattern map.

use super::near;
use super::phases::{Ends, WAYS};
use super::places;
use super::rule::Cut;
use super::taken::{planes_of, CUTS, PLANES};
use super::tally::{self, Tally};
use crate::writes::MIX_DESTINATION;
use model::pixels::Order;
use model::{Coprocessor, Registers};
use std::fmt;

const INKS: [&str; 4] = [
    "opaque",
    "of the background alone",
    "of the foreground alone",
    "that change nothing",
];

const ORDERS: [&str; 4] = [
    "from Intel to Intel",
    "from Motorola to Intel",
    "from Intel to Motorola",
    "from Motorola to Motorola",
];

/// The pixels of a byte of a pattern map.
const IN_BYTE: u32 = 8;

/// What was met.
pub struct Patterned {
    inks: Tally,
    /// By the mix of the foreground and of the background.
    mixes: [Tally; 2],
    planes: Tally,
    cuts: Tally,
    lengths: Tally,
    orders: Tally,
    /// By the pattern's order and the way.
    ends: [[Ends; 2]; 2],
    pub near: Tally,
}

/// A stretch of a pattern has one of these lengths.
const LENGTHS: [&str; 5] = [
    "of one pixel",
    "of pattern pixels within a byte",
    "of pattern pixels of two bytes",
    "of pattern pixels of more bytes",
    "of pattern pixels of more than 10 bytes",
];

impl Default for Patterned {
    fn default() -> Patterned {
        Patterned {
            inks: Tally::both_ways("positions in stretches of a pattern", &INKS),
            mixes: [
                tally::of_mixes("positions in stretches of a pattern, by mix of the foreground"),
                tally::of_mixes("positions in stretches of a pattern, by mix of the background"),
            ],
            planes: Tally::new("positions in stretches of a pattern, in", PLANES),
            cuts: Tally::both_ways("stretches of a pattern, by what ends them", &CUTS),
            lengths: Tally::both_ways("stretches of a pattern", &LENGTHS),
            orders: Tally::new("stretches of a pattern, by order", ORDERS),
            ends: Default::default(),
            near: near::tally("patterns, by where their bytes lie"),
        }
    }
}

impl Patterned {
    /// Counts the stretch of so many positions that comes next.
    pub fn note(&mut self, state: &Coprocessor, length: u32, cut: Cut) {
        let registers = &state.registers;
        let x_sign = registers.fields().x_sign();
        let is_back = x_sign < 0;
        let [from, to] = [places::pattern(registers), places::destination(registers)];
        let is_motorola = [from, to].map(|place| place.map.order() == Order::Motorola);

        self.inks.note_way(is_back, ink(registers), length);
        let mixes = [registers.foreground_mix, registers.background_mix];
        for (tally, mix) in self.mixes.iter_mut().zip(mixes) {
            tally.note(mix.into(), length);
        }
        self.planes.note(planes_of(registers), length);
        self.cuts.note_way(is_back, cut as usize, 1);
        let bytes = from.bytes(length, x_sign).count();
        self.lengths.note_way(is_back, length_of(length, bytes), 1);
        let order = usize::from(is_motorola[0]) + 2 * usize::from(is_motorola[1]);
        self.orders.note(order, 1);
        self.ends[usize::from(is_motorola[0])][usize::from(is_back)].note(
            IN_BYTE,
            is_back,
            from.in_byte(),
            length,
        );
    }

    pub fn positions(&self) -> u64 {
        self.inks.sum()
    }

    pub fn stretches(&self) -> u64 {
        self.cuts.sum()
    }

    /// What was never met.
    pub fn never_met(&self) -> Option<String> {
        let is_any_0 = self
            .ends
            .iter()
            .flatten()
            .any(|ends| ends.is_any_0(IN_BYTE));
        let never =
            is_any_0.then(|| "no pattern began or ended at some place in a byte".to_string());
        never.or_else(|| tally::never_met(&self.tallies()))
    }

    fn tallies(&self) -> [&Tally; 8] {
        [
            &self.inks,
            &self.mixes[0],
            &self.mixes[1],
            &self.planes,
            &self.cuts,
            &self.lengths,
            &self.orders,
            &self.near,
        ]
    }
}

/// The place among the inks: which of the two mixes leave the destination.
fn ink(registers: &Registers) -> usize {
    let is_left = |mix: u8| usize::from(u32::from(mix) == MIX_DESTINATION);
    is_left(registers.foreground_mix) + 2 * is_left(registers.background_mix)
}

/// The place among the lengths of so many pixels, whose pattern lies in so many bytes.
fn length_of(length: u32, bytes: usize) -> usize {
    match bytes {
        1 => usize::from(length > 1),
        2 => 2,
        _ => 3 + usize::from(bytes > 10),
    }
}

impl fmt::Display for Patterned {
    fn fmt(&self, lines: &mut fmt::Formatter) -> fmt::Result {
        tally::write_all(lines, &self.tallies())?;
        let orders = ["Intel", "Motorola"].into_iter().zip(&self.ends);
        for (order, ways) in orders {
            for (way, ends) in WAYS.into_iter().zip(ways) {
                write!(
                    lines,
                    "\n  stretches of a pattern in {order} order {way}, {}",
                    ends.told(IN_BYTE)
                )?;
            }
        }
        Ok(())
    }
}
