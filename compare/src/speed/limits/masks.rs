//! Masks of pixels, spread from a byte with a bit for each of them, the lowest first.

/// The mask of each byte.
pub static MASKS: [u64; 256] = masks();

const fn masks() -> [u64; 256] {
    let mut masks = [0; 256];
    let mut bits = 0;
    while bits < masks.len() {
        masks[bits] = mask(bits as u8);
        bits += 1;
    }
    masks
}

/// All ones in each 8-bit pixel whose bit is 1.
pub const fn mask(bits: u8) -> u64 {
    const ONES: u64 = 0x0101_0101_0101_0101;
    const DIAGONAL: u64 = 0x8040_2010_0804_0201;
    // Each pixel gets its own bit alone, which 7F then carries into the pixel's highest.
    let alone = (bits as u64 * ONES) & DIAGONAL;
    (((alone + 0x7F * ONES) >> 7) & ONES) * 0xFF
}

/// All ones in each 4-bit pixel whose bit is 1.
pub fn nibbles(bits: u8) -> u32 {
    let mut spread = u32::from(bits);
    for (distance, kept) in [(12, 0x000F_000F), (6, 0x0303_0303), (3, 0x1111_1111)] {
        spread = (spread | spread << distance) & kept;
    }
    spread * 0xF
}
