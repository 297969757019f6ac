//! Random arguments of calls: places, writes of every kind, allowances, and wrong lengths of a memory.

use crate::random::Random;
use crate::writes::{self, Write};

/// A place that is most often of a listed register, and sometimes any.
pub fn place(random: &mut Random) -> (u32, u32) {
    let length = random.pick(&[1, 2, 4]);
    let offset = match random.below(48) {
        0 => return (random.word(), random.pick(&[0, 1, 2, 3, 4, 8, u32::MAX])),
        1 => return (u32::MAX - random.below(8), length),
        2..=4 => return (random.below(0x90), random.below(6)),
        5..=15 => random.pick(&[0x12, 0x1C, 0x48, 0x49, 0x4A, 0x2F, 0x7F]),
        16..=26 => 0x14 + random.below(0x1C),
        27..=37 => 0x48 + random.below(0x1C),
        _ => 0x6C + random.below(0x14),
    };
    (offset / length * length, length)
}

/// A write whose value is most often small or of few bits, so that starts are met as well as refusals.
pub fn write(random: &mut Random) -> Write {
    let (offset, length) = place(random);
    let word = random.word();
    let value = match random.below(5) {
        0 => word,
        1 => word & 0x0007_0007,
        2 => random.below(24),
        3 => u32::MAX << random.below(32),
        _ => word & random.word() & random.word(),
    };
    if random.once_in(6) {
        return writes::operations(operations(random));
    }
    (offset, length, value)
}

/// Pixel operations that are nearly right.
pub fn operations(random: &mut Random) -> u32 {
    let function = random.pick(&[2, 3, 4, 5, 8, 9, 10, 5, 8, 10]);
    let sources = random.pick(&[0b0000, 0b0010, 0b1000, 0b1010, 0b0001]);
    let maps = random.pick(&[0x01, 0x11, 0x12, 0x23, 0x31, 0x10]);
    let pattern = random.pick(&[8, 8, 8, 9, 1, 2, 3, 0]);
    let rest = random.word() & random.pick(&[0x07, 0x37, 0xC7, 0x47, 0x87, 0xFF]);
    sources << 28 | function << 24 | maps << 16 | pattern << 12 | rest
}

/// A write of the highest bytes of the pixel operations, 1, 2 or 4 of them.
pub fn top_of_operations(random: &mut Random, operations: u32) -> Write {
    let length = random.pick(&[1, 2, 4]);
    (0x80 - length, length, operations >> (32 - 8 * length))
}

/// A write of 1, 2 or 4 codes, a few of them stops.
pub fn codes(random: &mut Random) -> Write {
    let length = random.pick(&[1, 2, 4]);
    let mut codes = random.word() | random.pick(&[0, 0x1010_1010, 0x1010_1010]);
    if random.once_in(4) {
        codes &= !(0xFF << (8 * random.below(4)));
    }
    writes::codes(length, codes)
}

/// An allowance, most often small and sometimes 0.
pub fn allowance(random: &mut Random) -> u32 {
    let most = random.pick(&[1, 1, 2, 4, 10, 30, 100]);
    match random.below(16) {
        0 => 0,
        _ => 1 + random.below(most),
    }
}

/// The length of a memory that does not fit a state of this size.
pub fn misfit(random: &mut Random, size: u32) -> u32 {
    match random.below(4) {
        0 => size - 1,
        1 => 0,
        2 if size != 300 => 300,
        _ => size + 1,
    }
}
