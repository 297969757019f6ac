//! The pixels at the pointers, and the bytes in which they and their followers lie.

use model::{pixels, Map, Registers};
use std::ops::RangeInclusive;

/// A pixel of a map.
#[derive(Clone, Copy, Debug)]
pub struct Place<'a> {
    pub map: &'a Map,
    at: (u32, u32),
}

/// The destination's pixel, where the position lies in its map.
pub fn destination(registers: &Registers) -> Place<'_> {
    let at = [registers.destination_x, registers.destination_y];
    Place {
        map: registers.map(registers.fields().destination),
        at: at.map(|at| at as u32).into(),
    }
}

/// The source's pixel.
pub fn source(registers: &Registers) -> Place<'_> {
    Place {
        map: registers.map(registers.fields().source),
        at: (registers.source_x.into(), registers.source_y.into()),
    }
}

/// The pattern's pixel.
pub fn pattern(registers: &Registers) -> Place<'_> {
    Place {
        map: registers.map(registers.fields().pattern),
        at: (registers.pattern_x.into(), registers.pattern_y.into()),
    }
}

impl Place<'_> {
    /// The pixel's first bit, counted from its map's base.
    fn bit(&self) -> u64 {
        pixels::start_bit(self.map.row_length(), self.map.bits(), self.at.0, self.at.1)
    }

    /// The byte of memory that holds it.
    pub fn byte(&self) -> u64 {
        u64::from(self.map.base) + self.bit() / 8
    }

    /// Which of its byte's pixels it is, the first bit first.
    pub fn in_byte(&self) -> u32 {
        (self.bit() % 8) as u32 / self.map.bits()
    }

    /// The bytes from the lowest to the highest one of so many pixels of a row, this one first.
    pub fn bytes(&self, length: u32, x_sign: i64) -> RangeInclusive<u64> {
        let far = u64::from((length - 1) * self.map.bits());
        let lowest = match x_sign {
            1 => self.bit(),
            _ => self.bit() - far,
        };
        let base = u64::from(self.map.base);
        base + lowest / 8..=base + (lowest + far) / 8
    }
}

/// Whether a byte lies in both ranges.
pub fn share_a_byte(one: &RangeInclusive<u64>, other: &RangeInclusive<u64>) -> bool {
    one.start() <= other.end() && other.start() <= one.end()
}
