//! A pixel map (01, Registers; 01, Maps and pointers; 02, 101).

use crate::pixels::{self, Layout, Order};

/// The four registers of a pixel map, as stored.
#[derive(Clone, Copy, Debug, Default, PartialEq, Eq)]
pub struct Map {
    /// 14: the byte of memory where the map starts.
    pub base: u32,
    /// 18: one less than the pixels of a row.
    pub width: u16,
    /// 1A: one less than the rows.
    pub height: u16,
    /// 1C: the pixel code in bits 2-0 and the order in bit 3.
    pub format: u8,
}

impl Map {
    /// The pixels of a row.
    pub fn row_length(&self) -> u32 {
        u32::from(self.width) + 1
    }

    /// The rows.
    pub fn rows(&self) -> u32 {
        u32::from(self.height) + 1
    }

    /// 003:2543: the pixel size code, bits 2-0 of the format.
    pub fn pixel_code(&self) -> u8 {
        self.format & 7
    }

    /// 003:2552: the order of the pixels, which bit 3 of the format chooses.
    pub fn order(&self) -> Order {
        if self.format & 8 == 0 {
            Order::Intel
        } else {
            Order::Motorola
        }
    }

    /// Formats 0 to 3 mean 1, 2, 4, 8 bits.
    pub fn bits(&self) -> u32 {
        1 << self.pixel_code()
    }

    /// How its pixels lie in memory.
    pub fn layout(&self) -> Layout {
        Layout {
            base: self.base,
            row_length: self.row_length(),
            bits: self.bits(),
            order: self.order(),
        }
    }

    /// The first byte after the map.
    pub fn end(&self) -> u64 {
        let needed = pixels::bytes_needed(self.row_length(), self.rows(), self.bits());
        u64::from(self.base) + needed
    }

    /// The place as a pixel of this map, if it lies inside.
    pub fn pixel_at(&self, x: i64, y: i64) -> Option<(u32, u32)> {
        let x = u32::try_from(x).ok().filter(|x| *x < self.row_length())?;
        let y = u32::try_from(y).ok().filter(|y| *y < self.rows())?;
        Some((x, y))
    }
}
