//! Blocks of another map's pixels, or of the same one's.

use super::{
    block, columns, one, pixels, Work, Workload, ALL, COPY, FROM, FROM_AT, LEFTWARDS, MASK, MASKED,
    RAGGED, SIDE, SMALL_PIXELS, SOURCES, SQUARE, TO, XORS,
};
use crate::speed::limits::{bits, bytes, patterns, Rows};
use crate::writes::{self, map, Point, Write, BITS_1, BITS_4, BITS_8};

/// The first map onto itself.
const SHIFT: u32 = COPY & !(0xF << 20) | TO << 20;

/// How far a map's rows are moved onto themselves, and how many of their pixels are.
const MOVED: usize = 3;
const MOVED_WIDTH: usize = SIDE - MOVED;

/// Where the mask lies.
const MASK_AT: usize = 0x8_0000;

/// The rows of a whole 8-bit map.
const ROWS: Rows = Rows::of_map(0, SIDE, SIDE);

pub fn all() -> Vec<Workload> {
    let mut all = vec![
        Workload::new("8-bit copy, 512 by 512", || plain(0, 0)),
        Workload::new("8-bit copy, X negative, 512 by 512", || {
            plain(SQUARE.0 - 1, LEFTWARDS)
        }),
        Workload::new("8-bit shift left by 3, 509 by 512", to_the_left),
        Workload::new("8-bit shift right by 3, 509 by 512", to_the_right),
        Workload::new("8-bit repeat right by 3, 509 by 512", repeat),
    ];
    for format in SMALL_PIXELS {
        for (phase, distance) in [("same", 0), ("other", 3)] {
            let name = format!("{}-bit copy, {phase} phase, 506 by 512", 1 << format);
            let prepare = move || of_small_pixels(format, distance);
            all.push(Workload::new(name, prepare));
        }
    }
    all.push(Workload::new(
        "4-bit xor copy, mask map, 512 by 512",
        masked_xor,
    ));
    all
}

/// A map into another one, from a column on.
fn plain(column: i64, octant: u32) -> Work {
    let mut writes = map(TO, 0, SQUARE, BITS_8).to_vec();
    writes.extend(map(FROM, FROM_AT as u32, SQUARE, BITS_8));
    writes.extend(copy((column, 0), (column, 0), SQUARE, COPY | octant));
    one(writes, |memory| bytes::copy(memory, ROWS, FROM_AT))
}

fn to_the_left() -> Work {
    let to = columns((0, MOVED_WIDTH), 1);
    shift((0, MOVED), 0, move |memory| bytes::shift(memory, to, MOVED))
}

/// The last column first, so that no pixel is overwritten before it is read.
fn to_the_right() -> Work {
    let to = columns((MOVED, MOVED_WIDTH), 1);
    shift((SIDE - 1, MOVED_WIDTH - 1), LEFTWARDS, move |memory| {
        bytes::shift(memory, to, 0)
    })
}

/// The first column first, so that a row's first pixels come again and again.
fn repeat() -> Work {
    let to = columns((MOVED, MOVED_WIDTH), 1);
    shift((MOVED, 0), 0, move |memory| {
        bytes::repeat(memory, to, MOVED)
    })
}

/// Rows of a map onto themselves, to one column from another.
fn shift((to, from): (usize, usize), octant: u32, limit: impl Fn(&mut [u8]) + 'static) -> Work {
    let [to, from] = [to, from].map(|column| (column as i64, 0));
    let size = (MOVED_WIDTH as i64, SQUARE.1);
    let mut writes = map(TO, 0, SQUARE, BITS_8).to_vec();
    writes.extend(copy(to, from, size, SHIFT | octant));
    one(writes, limit)
}

/// Some columns of a map into those of another one so many pixels further left.
fn of_small_pixels(format: u32, distance: usize) -> Work {
    let bits = 1 << format;
    let (first, width) = RAGGED;
    let [to, from] = [first, first + distance].map(|column| (column as i64, 0));
    let mut writes = map(TO, 0, SQUARE, format).to_vec();
    writes.extend(map(FROM, FROM_AT as u32, SQUARE, format));
    writes.extend(copy(to, from, (width as i64, SQUARE.1), COPY));
    let to = columns(RAGGED, bits);
    let from = FROM_AT * 8 + (first + distance) * bits;
    one(writes, move |memory| match distance {
        0 => bits::copy(memory, to, from),
        _ => bits::copy_shifted(memory, to, from),
    })
}

/// The mask shows discs, 64 pixels apart.
fn masked_xor() -> Work {
    let mut writes = map(TO, 0, SQUARE, BITS_4).to_vec();
    writes.extend(map(FROM, FROM_AT as u32, SQUARE, BITS_4));
    writes.extend(map(MASK, MASK_AT as u32, SQUARE, BITS_1));
    writes.extend(pixels(XORS, ALL, (0, 0)));
    writes.extend(block(SQUARE, COPY | MASKED));
    let to = Rows::of_map(0, SIDE / 2, SIDE);
    let mask = Rows::of_map(MASK_AT, SIDE / 8, SIDE);
    let mut work = one(writes, move |memory| {
        patterns::xor_through(memory, to, FROM_AT, mask)
    });
    let mask = &mut work.memory[MASK_AT..][..SIDE * SIDE / 8];
    for (place, byte) in mask.iter_mut().enumerate() {
        let is_inside = |bit: usize| {
            let (x, y) = (place % 64 * 8 + bit, place / 64);
            (x % 64).abs_diff(32).pow(2) + (y % 64).abs_diff(32).pow(2) < 900
        };
        *byte = (0..8).fold(0, |byte, bit| byte | u8::from(is_inside(bit)) << bit);
    }
    work
}

/// A block of source pixels, to one place from another.
fn copy(to: Point, from: Point, size: Point, operations: u32) -> Vec<Write> {
    let mut writes = pixels(SOURCES, ALL, (0, 0)).to_vec();
    writes.extend([writes::destination(to), writes::source(from)]);
    writes.extend(block(size, operations));
    writes
}
