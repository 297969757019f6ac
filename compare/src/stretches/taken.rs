//! What was met of stretches of a colour, and of source pixels in phase.

use super::overlaps::Overlaps;
use super::parts::Parts;
use super::phases::Phases;
use super::places;
use super::rule::{self, Cut};
use super::tally::{self, Tally};
use crate::writes::{MIX_SOURCE, MIX_XOR};
use model::mixes;
use model::pixels::Order;
use model::{Coprocessor, Drawing, Map, Registers};
use std::fmt;

/// What the whole bytes of a stretch do.
#[derive(Clone, Copy, Debug, PartialEq, Eq)]
pub enum Ink {
    /// They take a colour.
    Solid,
    /// They take the source's bytes.
    Copied,
    /// They take bytes of source and destination together.
    Blended,
}

const INKS: [&str; 6] = [
    "solid bytes",
    "solid ragged ends",
    "copied bytes",
    "copied ragged ends",
    "blended bytes",
    "blended ragged ends",
];

/// The mixes and planes of source pixels.
pub const BLENDS: [&str; 6] = [
    "S in all planes",
    "S in some planes",
    "xor in all planes",
    "xor in some planes",
    "another in all planes",
    "another in some planes",
];

/// What ends a stretch; the last ends none of a colour.
pub const CUTS: [&str; 5] = [
    "row's end",
    "allowance",
    "map's edge",
    "mask's edge",
    "edge of what is read",
];

pub const LENGTHS: [&str; 6] = [
    "of one pixel",
    "of ragged ends alone",
    "of whole bytes alone",
    "of whole bytes and one end",
    "of whole bytes and two ends",
    "of more than 100 whole bytes",
];

/// More whole bytes than these are told by themselves.
const MANY_BYTES: u32 = 100;

const COMING: [&str; 2] = [
    "round the destination's circle",
    "after two edges of the source",
];

pub const FORMATS: [&str; 8] = [
    "1 bit Intel",
    "2 bits Intel",
    "4 bits Intel",
    "8 bits Intel",
    "1 bit Motorola",
    "2 bits Motorola",
    "4 bits Motorola",
    "8 bits Motorola",
];

pub const PLANES: [&str; 2] = ["all planes", "some planes"];

/// What was met.
pub struct Taken {
    inks: Tally,
    blends: Tally,
    /// Of a colour, and of source pixels.
    cuts: [Tally; 2],
    lengths: Tally,
    coming: Tally,
    formats: Tally,
    /// By the mix, of a colour and of a source pixel.
    mixes: [Tally; 2],
    phases: Phases,
    overlaps: Overlaps,
}

impl Default for Taken {
    fn default() -> Taken {
        Taken {
            inks: Tally::both_ways("positions in stretches", &INKS),
            blends: Tally::both_ways("positions copied and blended, by mix", &BLENDS),
            cuts: [
                Tally::both_ways("stretches of a colour, by what ends them", &CUTS[..4]),
                Tally::both_ways("stretches of source pixels, by what ends them", &CUTS),
            ],
            lengths: Tally::both_ways("stretches", &LENGTHS),
            coming: Tally::both_ways("stretches that come", &COMING),
            formats: Tally::new("positions in whole bytes, by format", FORMATS),
            mixes: [
                tally::of_mixes("positions in stretches of a colour, by mix"),
                tally::of_mixes("positions in stretches of source pixels, by mix"),
            ],
            phases: Phases::default(),
            overlaps: Overlaps::default(),
        }
    }
}

impl Taken {
    /// Counts the stretch of so many positions that comes next.
    pub fn note(&mut self, state: &Coprocessor, length: u32, cut: Cut) {
        let registers = &state.registers;
        let is_back = registers.fields().x_sign() < 0;
        let to = places::destination(registers);
        let in_byte = 8 / to.map.bits();
        let parts = Parts::of(length, to.in_byte(), in_byte, is_back);
        let ink = ink(registers);
        let source = usize::from(ink != Ink::Solid);

        self.inks.note_way(is_back, 2 * ink as usize, parts.whole);
        let ends = parts.before + parts.after;
        self.inks.note_way(is_back, 2 * ink as usize + 1, ends);
        self.cuts[source].note_way(is_back, cut as usize, 1);
        self.lengths
            .note_way(is_back, length_of(&parts, in_byte), 1);
        self.formats.note(format_of(to.map), parts.whole);
        self.mixes[source].note(registers.foreground_mix.into(), length);
        if ink != Ink::Solid {
            self.blends.note_way(is_back, blend(registers), length);
        }
        for (place, is_met) in coming(state).into_iter().enumerate() {
            self.coming.note_way(is_back, place, is_met.into());
        }
        self.phases
            .note(to.map.bits(), is_back, to.in_byte(), length);
        self.overlaps.note(registers, ink, parts.whole);
    }

    pub fn positions(&self) -> u64 {
        self.inks.sum()
    }

    pub fn stretches(&self) -> u64 {
        self.cuts.iter().map(Tally::sum).sum()
    }

    /// What was never met.
    pub fn never_met(&self) -> Option<String> {
        tally::never_met(&self.tallies())
            .or_else(|| self.phases.never_met())
            .or_else(|| self.overlaps.never_met())
    }

    fn tallies(&self) -> [&Tally; 9] {
        [
            &self.inks,
            &self.blends,
            &self.cuts[0],
            &self.cuts[1],
            &self.lengths,
            &self.coming,
            &self.formats,
            &self.mixes[0],
            &self.mixes[1],
        ]
    }
}

/// What the whole bytes of these registers' stretches do.
pub fn ink(registers: &Registers) -> Ink {
    if !rule::takes_source(registers) {
        return Ink::Solid;
    }
    match u32::from(registers.foreground_mix) == MIX_SOURCE && planes_of(registers) == 0 {
        true => Ink::Copied,
        false => Ink::Blended,
    }
}

/// The place among the planes: whether not every bit of a pixel takes the mix.
pub fn planes_of(registers: &Registers) -> usize {
    let map = registers.map(registers.fields().destination);
    let ones = mixes::ones(map.bits());
    usize::from(registers.plane_mask & ones != ones)
}

/// Whether a position outside the map lies left of it, right of it, or above or below it.
pub fn beside_map(registers: &Registers) -> usize {
    let map = registers.map(registers.fields().destination);
    let is_row = (0..map.rows() as i32).contains(&registers.destination_y.into());
    match is_row {
        true => usize::from(registers.destination_x >= 0),
        false => 2,
    }
}

/// The place of a map's format among the formats.
pub fn format_of(map: &Map) -> usize {
    4 * usize::from(map.order() == Order::Motorola) + usize::from(map.pixel_code())
}

/// The place of the registers' mix and planes among the blends.
pub fn blend(registers: &Registers) -> usize {
    let mix = match registers.foreground_mix.into() {
        MIX_SOURCE => 0,
        MIX_XOR => 2,
        _ => 4,
    };
    mix + planes_of(registers)
}

/// The place of the parts among the lengths.
pub fn length_of(parts: &Parts, in_byte: u32) -> usize {
    let ends = [parts.before, parts.after];
    match (parts.whole, ends.iter().filter(|end| **end > 0).count()) {
        _ if parts.whole / in_byte > MANY_BYTES => 5,
        (0, _) if ends[0] + ends[1] == 1 => 0,
        (1, 0) => 0,
        (0, _) => 1,
        (_, count) => 2 + count,
    }
}

/// Whether the row came round the destination's circle before this position, and twice over an edge of a source that is taken.
fn coming(state: &Coprocessor) -> [bool; 2] {
    let registers = &state.registers;
    let fields = registers.fields();
    let column = match state.drawing {
        Drawing::Block { column, .. } => i64::from(column),
        _ => 0,
    };
    let x = i64::from(registers.destination_x) - fields.x_sign() * column;
    let side = i64::from(registers.map(fields.source).row_length());
    [
        !(-2_048..=6_143).contains(&x),
        rule::takes_source(registers) && column > 2 * side,
    ]
}

impl fmt::Display for Taken {
    fn fmt(&self, lines: &mut fmt::Formatter) -> fmt::Result {
        tally::write_all(lines, &self.tallies())?;
        write!(lines, "{}{}", self.phases, self.overlaps)
    }
}
