//! Rows of 1-, 2- or 4-bit pixels, measured in bits.

use super::Rows;

/// Gives every pixel the colour that a byte repeats.
#[inline(never)]
pub fn set(memory: &mut [u8], rows: Rows, colours: u8) {
    for at in rows.starts() {
        row(memory, at, rows.width, |bytes| bytes.fill(colours));
    }
}

/// Copies to rows from those at another place behind them, which start at the same bit of a byte.
#[inline(never)]
pub fn copy(memory: &mut [u8], to: Rows, from: usize) {
    let (front, back) = memory.split_at_mut(from / 8);
    for at in to.starts() {
        let source = &back[(at - to.at) / 8..];
        row(front, at, to.width, |bytes| {
            bytes.copy_from_slice(&source[..bytes.len()]);
        });
    }
}

/// Copies to rows from those at another place behind them, which start at another bit of a byte; rows have 16 bytes or more.
#[inline(never)]
pub fn copy_shifted(memory: &mut [u8], to: Rows, from: usize) {
    // What comes to the lowest bit of a row's first byte.
    let lowest = from - to.at % 8;
    let down = lowest % 8;
    let (front, back) = memory.split_at_mut(lowest / 8);
    for at in to.starts() {
        let source = &back[(at - to.at) / 8..];
        row(front, at, to.width, |bytes| {
            let sources = source.chunks_exact(16).zip(source[1..].chunks_exact(16));
            for (to, (low, high)) in bytes.chunks_exact_mut(16).zip(sources) {
                shift(to, low, high, down);
            }
            // The last sixteen overlap those before them.
            let last = bytes.len() - 16;
            let source = &source[last..][..17];
            shift(&mut bytes[last..][..16], &source[..16], &source[1..], down);
        });
    }
}

/// Makes each byte the upper bits of a low one and the lower bits of a high one.
#[inline(always)]
fn shift(to: &mut [u8], low: &[u8], high: &[u8], down: usize) {
    for ((byte, low), high) in to.iter_mut().zip(low).zip(high) {
        *byte = low >> down | high << (8 - down);
    }
}

/// Draws all bytes in which a row has bits, and gives their other bits back.
fn row(memory: &mut [u8], at: usize, width: usize, draw: impl FnOnce(&mut [u8])) {
    let end = at + width - 1;
    let bytes = &mut memory[at / 8..=end / 8];
    let last = bytes.len() - 1;
    let before = (bytes[0], bytes[last]);
    draw(bytes);
    keep(&mut bytes[0], 0xFF << (at % 8), before.0);
    keep(&mut bytes[last], 0xFF >> (7 - end % 8), before.1);
}

/// Leaves a byte only the bits that are drawn, and the others as they were before.
fn keep(byte: &mut u8, drawn: u8, before: u8) {
    *byte = *byte & drawn | before & !drawn;
}
