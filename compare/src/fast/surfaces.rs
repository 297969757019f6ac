//! A pixel map as the loop uses it.

use model::map::Map;
use model::mixes;
use model::pixels::Order;
use model::reach::{self, Role};

/// A map with its sizes worked out.
pub(super) struct Surface {
    role: Role,
    base: usize,
    pub(super) row_length: u32,
    pub(super) rows: u32,
    pixel_code: u32,
    ones: u32,
    /// What turns a shift in Intel order into the map's own: 8 - size - shift is shift xor 8 - size.
    turn: u32,
}

/// A pixel's byte and the place of its lowest bit there.
struct Place {
    byte: usize,
    shift: u32,
}

impl Surface {
    /// The surface of a map whose format was accepted, or of a mask map of which only the sides count.
    pub(super) fn of(role: Role, map: &Map) -> Surface {
        Surface {
            role,
            base: map.base as usize,
            row_length: map.row_length(),
            rows: map.rows(),
            pixel_code: u32::from(map.pixel_code()),
            ones: mixes::ones(map.bits()),
            turn: match map.order() {
                Order::Intel => 0,
                Order::Motorola => 8u32.saturating_sub(map.bits()),
            },
        }
    }

    /// All ones of a pixel.
    pub(super) fn ones(&self) -> u32 {
        self.ones
    }

    /// Whether the pixel lies inside.
    #[inline(always)]
    pub(super) fn holds(&self, x: u32, y: u32) -> bool {
        x < self.row_length && y < self.rows
    }

    /// Where the pixel lies.
    #[inline(always)]
    fn place(&self, x: u32, y: u32) -> Place {
        let bit = (y * self.row_length + x) << self.pixel_code;
        Place {
            byte: self.base + (bit >> 3) as usize,
            shift: bit & 7 ^ self.turn,
        }
    }

    /// The pixel's value; beyond the memory it panics.
    #[inline(always)]
    pub(super) fn pixel(&self, memory: &[u8], x: u32, y: u32) -> u32 {
        let place = self.place(x, y);
        match memory.get(place.byte) {
            Some(byte) => u32::from(*byte) >> place.shift & self.ones,
            None => reach::fail(self.role, (x, y), memory.len()),
        }
    }

    /// The pixel's byte, to be read and written, and the place of its lowest bit there; beyond the memory it panics.
    #[inline(always)]
    pub(super) fn byte<'a>(&self, memory: &'a mut [u8], x: u32, y: u32) -> (&'a mut u8, u32) {
        let place = self.place(x, y);
        let memory_length = memory.len();
        match memory.get_mut(place.byte) {
            Some(byte) => (byte, place.shift),
            None => reach::fail(self.role, (x, y), memory_length),
        }
    }
}
