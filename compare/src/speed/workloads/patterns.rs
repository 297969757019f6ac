//! Blocks whose pixels the random bits of a pattern pick.

use super::{
    block, one, pixels, Work, Workload, ALL, AREA_FILL, BITMAP, BITMAP_AT, EXPANSION, SIDE,
    SOURCES, SQUARE, TO,
};
use crate::speed::limits::{patterns, Rows};
use crate::writes::{map, BITS_1, BITS_8, MIX_DESTINATION, MIX_SOURCE};

const PATTERN: &str = "1-bit pattern to 8 bits, 512 by 512";

/// The colours of foreground and background.
const COLOURS: (u8, u8) = (0xE0, 0x1F);

/// The rows of the 8-bit map and of the pattern.
const ROWS: Rows = Rows::of_map(0, SIDE, SIDE);
const BITS: Rows = Rows::of_map(BITMAP_AT, SIDE / 8, SIDE);

pub fn all() -> Vec<Workload> {
    vec![
        Workload::new(PATTERN, expansion),
        Workload::new("transparent pattern to 8 bits, 512 by 512", transparent),
        Workload::new("area fill, 512 by 512", area_fill).beside(PATTERN),
    ]
}

/// The pattern picks foreground or background colour.
fn expansion() -> Work {
    by_pattern(SOURCES, EXPANSION, |memory| {
        patterns::expand(memory, ROWS, BITS, COLOURS)
    })
}

/// The pattern picks the foreground colour, or the pixel stays.
fn transparent() -> Work {
    by_pattern((MIX_SOURCE, MIX_DESTINATION), EXPANSION, |memory| {
        patterns::expand_over(memory, ROWS, BITS, COLOURS.0)
    })
}

/// Each 1 of the pattern turns inside to outside or back.
fn area_fill() -> Work {
    by_pattern(SOURCES, AREA_FILL, |memory| {
        patterns::fill(memory, ROWS, BITS, COLOURS)
    })
}

fn by_pattern(mixes: (u32, u32), operations: u32, limit: impl Fn(&mut [u8]) + 'static) -> Work {
    let mut writes = map(TO, 0, SQUARE, BITS_8).to_vec();
    writes.extend(map(BITMAP, BITMAP_AT as u32, SQUARE, BITS_1));
    writes.extend(pixels(mixes, ALL, COLOURS));
    writes.extend(block(SQUARE, operations));
    one(writes, limit)
}
