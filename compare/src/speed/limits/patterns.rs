//! Rows whose pixels the bits of a pattern or of a mask pick; it has a bit for each pixel, in whole bytes, and lies behind the rows.

use super::masks::{mask, nibbles, MASKS};
use super::Rows;

/// Gives rows of 8-bit pixels the foreground's colour or the background's, by a table of what each byte of bits picks.
#[inline(never)]
pub fn expand(memory: &mut [u8], to: Rows, pattern: Rows, colours: (u8, u8)) {
    let picks = picks(colours);
    rows(memory, to, pattern, |pixels, bits| {
        for (eight, bits) in pixels.chunks_exact_mut(8).zip(bits) {
            put(eight, picks[usize::from(*bits)]);
        }
    });
}

/// The same without a table, for rows of eight pixels.
#[inline(never)]
pub fn glyph(memory: &mut [u8], to: Rows, pattern: Rows, colours: (u8, u8)) {
    let (front, back) = memory.split_at_mut(pattern.at);
    for (at, bits) in to.starts().zip(&back[..pattern.count]) {
        put(&mut front[at..][..8], picked(mask(*bits), colours));
    }
}

/// Gives the pixels that the bits pick the colour, and leaves the others.
#[inline(never)]
pub fn expand_over(memory: &mut [u8], to: Rows, pattern: Rows, colour: u8) {
    let colour = repeated(colour);
    rows(memory, to, pattern, |pixels, bits| {
        for (eight, bits) in pixels.chunks_exact_mut(8).zip(bits) {
            let (mask, old) = (MASKS[usize::from(*bits)], word(eight));
            put(eight, old & !mask | colour & mask);
        }
    });
}

/// Gives a row of 8-bit pixels the colour of inside or of outside, which every 1 turns, 64 pixels at a time.
#[inline(never)]
pub fn fill(memory: &mut [u8], to: Rows, pattern: Rows, colours: (u8, u8)) {
    let picks = picks(colours);
    rows(memory, to, pattern, |pixels, bits| {
        let mut inside = 0;
        for (pixels, bits) in pixels.chunks_exact_mut(64).zip(bits.chunks_exact(8)) {
            let mut turned = word(bits);
            for distance in [1, 2, 4, 8, 16, 32] {
                turned ^= turned << distance;
            }
            turned ^= inside;
            inside = 0u64.wrapping_sub(turned >> 63);
            for (eight, bits) in pixels.chunks_exact_mut(8).zip(turned.to_le_bytes()) {
                put(eight, picks[usize::from(bits)]);
            }
        }
    });
}

/// Gives the pixels from each opening 1 up to its closing one the colour, by looking for the ones.
#[inline(never)]
pub fn fill_between(memory: &mut [u8], to: Rows, pattern: Rows, colour: u8) {
    rows(memory, to, pattern, |pixels, bits| {
        let mut opening = None;
        for (place, bits) in bits.chunks_exact(8).enumerate() {
            let mut left = word(bits);
            while left != 0 {
                let one = place * 64 + left.trailing_zeros() as usize;
                left &= left - 1;
                match opening.take() {
                    None => opening = Some(one),
                    Some(opening) => pixels[opening..one].fill(colour),
                }
            }
        }
        if let Some(opening) = opening {
            pixels[opening..].fill(colour);
        }
    });
}

/// Turns in a row of 4-bit pixels the bits of another row's, where the mask shows them.
#[inline(never)]
pub fn xor_through(memory: &mut [u8], to: Rows, from: usize, mask: Rows) {
    let (front, back) = memory.split_at_mut(from);
    for (at, shown) in to.starts().zip(mask.starts()) {
        let pixels = front[at..][..to.width].chunks_exact_mut(4);
        let sources = back[at - to.at..][..to.width].chunks_exact(4);
        let shown = &back[shown - from..][..mask.width];
        for ((pixels, source), shown) in pixels.zip(sources).zip(shown) {
            let mixed = half(pixels) ^ half(source) & nibbles(*shown);
            pixels.copy_from_slice(&mixed.to_le_bytes());
        }
    }
}

/// Draws each row by the bytes of its pattern.
fn rows(memory: &mut [u8], to: Rows, pattern: Rows, mut draw: impl FnMut(&mut [u8], &[u8])) {
    let (front, back) = memory.split_at_mut(pattern.at);
    for (at, bits) in to.starts().zip(pattern.starts()) {
        let bits = &back[bits - pattern.at..][..pattern.width];
        draw(&mut front[at..][..to.width], bits);
    }
}

/// What each byte of bits picks.
fn picks(colours: (u8, u8)) -> [u64; 256] {
    MASKS.map(|mask| picked(mask, colours))
}

/// Eight pixels, by the mask of the foreground's.
fn picked(mask: u64, (foreground, background): (u8, u8)) -> u64 {
    repeated(foreground) & mask | repeated(background) & !mask
}

fn repeated(byte: u8) -> u64 {
    u64::from_le_bytes([byte; 8])
}

fn word(eight: &[u8]) -> u64 {
    u64::from_le_bytes(eight.try_into().expect("eight bytes"))
}

fn half(four: &[u8]) -> u32 {
    u32::from_le_bytes(four.try_into().expect("four bytes"))
}

fn put(eight: &mut [u8], pixels: u64) {
    eight.copy_from_slice(&pixels.to_le_bytes());
}
