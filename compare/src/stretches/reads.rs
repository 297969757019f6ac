//! A map that is read beside the destination, and where it lies.

use crate::random::Random;
use crate::writes::{Point, MOTOROLA};

/// A map that is read.
#[derive(Clone, Debug)]
pub struct Read {
    pub size: Point,
    /// The pixel of the first position.
    pub from: Point,
    /// The order bit.
    pub order: u32,
    pub apart: Apart,
}

/// Where it lies.
#[derive(Clone, Copy, Debug, PartialEq, Eq)]
pub enum Apart {
    /// Anywhere.
    Anyhow,
    /// So many bytes behind the destination's base, or before it.
    Bytes(i64),
    /// It is the destination itself.
    Same,
}

impl Read {
    /// From any pixel of the first ones, and so large that a block of this size stays inside, in any direction.
    pub fn around(random: &mut Random, size: Point, is_back: bool, is_up: bool) -> Read {
        let mut side = |length: i64, first: i64, is_at_end: bool| {
            let from = random.between(0, first as i32);
            let last = first + 2 * length + i64::from(random.below(10));
            let end = if is_at_end { length } else { 0 };
            (last, i64::from(from) + end)
        };
        let (width, x) = side(size.0, 9, is_back);
        let (height, y) = side(size.1, 2, is_up);
        Read {
            size: (width, height),
            from: (x, y),
            order: random.pick(&[0, MOTOROLA]),
            apart: Apart::Anyhow,
        }
    }

    /// The bytes by which it may lie apart from the destination.
    pub fn space(&self) -> u32 {
        match self.apart {
            Apart::Bytes(apart) => apart.unsigned_abs() as u32,
            _ => 0,
        }
    }
}
