//! Pointers and how they step.

use super::surfaces::Surface;

/// The destination's circle has 8,192 numbers, of which those from 6,144 on stand for negative ones.
const DESTINATION_ONES: u32 = 8_191;
const FIRST_NEGATIVE: u32 = 6_144;

/// A pointer; the destination's is kept as a number of 0 to 8,191.
#[derive(Clone, Copy)]
pub(super) struct Point {
    pub(super) x: u32,
    pub(super) y: u32,
}

/// What one step adds to the source and pattern pointers, to the destination's, and to E.
#[derive(Clone, Copy)]
pub(super) struct Step {
    pub(super) map_x: i32,
    pub(super) destination_x: i32,
    pub(super) map_y: i32,
    pub(super) destination_y: i32,
    pub(super) term: i32,
}

impl Point {
    /// A pointer into a map.
    pub(super) fn in_map(x: u16, y: u16) -> Point {
        Point {
            x: x.into(),
            y: y.into(),
        }
    }

    /// The destination's pointer of its registers.
    pub(super) fn of_destination(x: i16, y: i16) -> Point {
        Point {
            x: x as u32 & DESTINATION_ONES,
            y: y as u32 & DESTINATION_ONES,
        }
    }

    /// The destination's registers.
    pub(super) fn destination_registers(self) -> (i16, i16) {
        let signed = |pointer: u32| {
            let above = if pointer < FIRST_NEGATIVE { 0 } else { 8_192 };
            (pointer as i32 - above) as i16
        };
        (signed(self.x), signed(self.y))
    }

    /// The destination's column, which is 0 where X is negative.
    #[inline(always)]
    pub(super) fn column(self) -> u32 {
        if self.x < FIRST_NEGATIVE {
            self.x
        } else {
            0
        }
    }

    /// The pointer moved by at most one; past an edge of the map it comes in at the other.
    #[inline(always)]
    pub(super) fn moved(self, map: &Surface, x: i32, y: i32) -> Point {
        Point {
            x: wrapped(self.x.wrapping_add_signed(x), map.row_length),
            y: wrapped(self.y.wrapping_add_signed(y), map.rows),
        }
    }

    /// The destination's pointer moved, from 6,143 to -2,048 and back.
    #[inline(always)]
    pub(super) fn moved_destination(self, x: i32, y: i32) -> Point {
        Point {
            x: self.x.wrapping_add_signed(x) & DESTINATION_ONES,
            y: self.y.wrapping_add_signed(y) & DESTINATION_ONES,
        }
    }
}

/// The pointer, or the other edge's where it is one past an edge.
#[inline(always)]
fn wrapped(pointer: u32, length: u32) -> u32 {
    if pointer < length {
        pointer
    } else if pointer == length {
        0
    } else {
        length - 1
    }
}
