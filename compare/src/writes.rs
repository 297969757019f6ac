//! Register writes, as a station makes them (01, Registers).

use model::registers::STEPS_START;

/// A write: offset, length and value.
pub type Write = (u32, u32, u32);

/// A pixel, which may lie outside its map, or a size.
pub type Point = (i64, i64);

/// Formats of maps.
pub const BITS_1: u32 = 0;
pub const BITS_2: u32 = 1;
pub const BITS_4: u32 = 2;
pub const BITS_8: u32 = 3;

/// The order bit of a format.
pub const MOTOROLA: u32 = 8;

/// Mixes.
pub const MIX_SOURCE: u32 = 0x3;
pub const MIX_DESTINATION: u32 = 0x5;
pub const MIX_XOR: u32 = 0x6;

/// Pixel operations, without their destination: always the foreground, in its colour.
pub const CODES: u32 = 0x0400_8000;
pub const LINE: u32 = 0x0500_8000;
pub const BLOCK: u32 = 0x0800_8000;

/// The drawing mode of an area boundary.
pub const BOUNDARY: u32 = 0x30;

/// A map of so many pixels, laid into the memory.
pub fn map(index: u32, base: u32, size: Point, format: u32) -> [Write; 4] {
    [
        (0x12, 1, index),
        (0x14, 4, base),
        (0x18, 4, pair(last(size))),
        (0x1C, 1, format),
    ]
}

/// Both mixes.
pub fn mixes(foreground: u32, background: u32) -> Write {
    (0x48, 2, background << 8 | foreground)
}

/// The compare condition that never holds.
pub fn no_compare() -> Write {
    (0x4A, 1, 4)
}

pub fn planes(mask: u32) -> Write {
    (0x50, 4, mask)
}

pub fn foreground(colour: u32) -> Write {
    (0x58, 4, colour)
}

pub fn background(colour: u32) -> Write {
    (0x5C, 4, colour)
}

/// Both dimensions of a block.
pub fn dimensions(size: Point) -> Write {
    (0x60, 4, pair(last(size)))
}

pub fn mask_origin(at: Point) -> Write {
    (0x6C, 4, pair(at))
}

pub fn source(at: Point) -> Write {
    (0x70, 4, pair(at))
}

pub fn pattern(at: Point) -> Write {
    (0x74, 4, pair(at))
}

pub fn destination(at: Point) -> Write {
    (0x78, 4, pair(at))
}

/// The pixel operations, which start a line or a block.
pub fn operations(value: u32) -> Write {
    (0x7C, 4, value)
}

/// The codes that end in the highest byte of the direction steps, which start draw and step.
pub fn codes(length: u32, value: u32) -> Write {
    (STEPS_START + 1 - length, length, value)
}

/// Codes as the bytes of a word, the first one lowest, and stops above them.
pub fn word(codes: impl DoubleEndedIterator<Item = u8>) -> u32 {
    codes.rfold(0, |word, code| word << 8 | u32::from(code))
}

/// The terms of a line by 003, and its length.
pub fn line(from: Point, to: Point) -> [Write; 4] {
    let (x, y) = distances(from, to);
    let (major, minor) = (x.max(y), x.min(y));
    [
        (0x20, 4, (2 * minor - major) as u32),
        (0x24, 4, (2 * minor) as u32),
        (0x28, 4, (2 * (minor - major)) as u32),
        (0x60, 2, major as u32),
    ]
}

/// The octant of a line; where both distances are the same, X is major.
pub fn octant(from: Point, to: Point) -> u32 {
    let (x, y) = distances(from, to);
    u32::from(to.0 < from.0) << 2 | u32::from(to.1 < from.1) << 1 | u32::from(y > x)
}

fn distances(from: Point, to: Point) -> Point {
    ((to.0 - from.0).abs(), (to.1 - from.1).abs())
}

/// The last pixel of a size, as widths, heights and dimensions have it.
fn last((width, height): Point) -> Point {
    (width - 1, height - 1)
}

/// Two registers of two bytes, X or width first.
fn pair((x, y): Point) -> u32 {
    (y as u32) << 16 | (x as u32 & 0xFFFF)
}
