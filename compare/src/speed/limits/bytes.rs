//! Rows of 8-bit pixels: a byte each.

use super::Rows;

/// Sets every byte.
#[inline(never)]
pub fn set(memory: &mut [u8], rows: Rows, colour: u8) {
    for at in rows.starts() {
        memory[at..][..rows.width].fill(colour);
    }
}

/// Sets rows that are all `WIDTH` bytes wide.
#[inline(never)]
pub fn set_narrow<const WIDTH: usize>(memory: &mut [u8], rows: Rows, colour: u8) {
    for at in rows.starts() {
        memory[at..][..WIDTH].copy_from_slice(&[colour; WIDTH]);
    }
}

/// Turns the colour's bits in every byte.
#[inline(never)]
pub fn xor(memory: &mut [u8], rows: Rows, colour: u8) {
    for at in rows.starts() {
        for byte in &mut memory[at..][..rows.width] {
            *byte ^= colour;
        }
    }
}

/// Sets the bits that the planes have.
#[inline(never)]
pub fn set_planes(memory: &mut [u8], rows: Rows, planes: u8, colour: u8) {
    let colour = colour & planes;
    for at in rows.starts() {
        for byte in &mut memory[at..][..rows.width] {
            *byte = *byte & !planes | colour;
        }
    }
}

/// Copies to rows from those at another place, which lies behind all of them.
#[inline(never)]
pub fn copy(memory: &mut [u8], to: Rows, from: usize) {
    let (front, back) = memory.split_at_mut(from);
    for at in to.starts() {
        let row = &back[at - to.at..][..to.width];
        front[at..][..to.width].copy_from_slice(row);
    }
}

/// Copies in the same way to rows that are all `WIDTH` bytes wide.
#[inline(never)]
pub fn copy_narrow<const WIDTH: usize>(memory: &mut [u8], to: Rows, from: usize) {
    let (front, back) = memory.split_at_mut(from);
    for at in to.starts() {
        let row = &back[at - to.at..][..WIDTH];
        front[at..][..WIDTH].copy_from_slice(row);
    }
}

/// Copies to rows from those at another place, which may overlap them, as if all were read before any is written.
#[inline(never)]
pub fn shift(memory: &mut [u8], to: Rows, from: usize) {
    for at in to.starts() {
        let from = from + (at - to.at);
        memory.copy_within(from..from + to.width, at);
    }
}

/// Repeats in each row the so many bytes right before it.
#[inline(never)]
pub fn repeat(memory: &mut [u8], to: Rows, period: usize) {
    for at in to.starts() {
        let from = at - period;
        let mut done = 0;
        while done < to.width {
            // All that is repeated by now goes behind itself.
            let next = (period + done).min(to.width - done);
            memory.copy_within(from..from + next, at + done);
            done += next;
        }
    }
}
