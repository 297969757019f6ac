//! Lines and step codes, on the index of a byte, and of a bit where pixels have one.

use crate::writes::Point;

/// A line by Bresenham: where it starts, what its two kinds of step add to the index, and the terms that choose between them.
#[derive(Clone, Copy)]
pub struct Line {
    at: usize,
    positions: usize,
    major: isize,
    both: isize,
    e: i32,
    k1: i32,
    k2: i32,
    is_up: bool,
    is_y_major: bool,
    colour: u8,
}

impl Line {
    /// The line with both its ends, in a map at 0 of so many pixels a row.
    pub fn between(from: Point, to: Point, row: i64, colour: u8) -> Line {
        let (x, y) = (to.0 - from.0, to.1 - from.1);
        let (right, down) = (x.signum(), y.signum() * row);
        let (larger, smaller) = (x.abs().max(y.abs()), x.abs().min(y.abs()));
        let is_y_major = y.abs() > x.abs();
        Line {
            at: (from.1 * row + from.0) as usize,
            positions: larger as usize + 1,
            major: if is_y_major { down } else { right } as isize,
            both: (right + down) as isize,
            e: (2 * smaller - larger) as i32,
            k1: (2 * smaller) as i32,
            k2: (2 * (smaller - larger)) as i32,
            is_up: y < 0,
            is_y_major,
            colour,
        }
    }
}

/// A line in 8-bit pixels, run by run.
#[inline(never)]
pub fn line(memory: &mut [u8], line: &Line) {
    let Line { mut at, mut e, .. } = *line;
    let mut left = line.positions;
    while left > 0 {
        while e < 0 && left > 0 {
            memory[at] = line.colour;
            at = at.wrapping_add_signed(line.major);
            e += line.k1;
            left -= 1;
        }
        if left > 0 {
            memory[at] = line.colour;
            at = at.wrapping_add_signed(line.both);
            e += line.k2;
            left -= 1;
        }
    }
}

/// The area boundary of a line in 8-bit pixels.
#[inline(never)]
pub fn boundary(memory: &mut [u8], line: &Line) {
    crossings(line, |at| memory[at] = line.colour);
}

/// Turns the area boundary of a line in 1-bit pixels.
#[inline(never)]
pub fn turned_boundary(memory: &mut [u8], line: &Line) {
    crossings(line, |at| memory[at / 8] ^= 1 << (at % 8));
}

/// The upper place of each step from one row to another.
#[inline(always)]
fn crossings(line: &Line, mut put: impl FnMut(usize)) {
    let Line {
        mut at,
        mut e,
        major,
        both,
        k1,
        k2,
        is_up,
        ..
    } = *line;
    for _ in 1..line.positions {
        let from = at;
        let is_crossing = e >= 0 || line.is_y_major;
        if e < 0 {
            at = at.wrapping_add_signed(major);
            e += k1;
        } else {
            at = at.wrapping_add_signed(both);
            e += k2;
        }
        if is_crossing {
            put(if is_up { at } else { from });
        }
    }
}

/// Drawn codes: where they start, and what each adds to the index in each of its steps.
#[derive(Clone, Copy)]
pub struct Codes {
    pub at: usize,
    pub steps: [(isize, usize); 4],
    pub colour: u8,
}

/// Four codes in 8-bit pixels.
#[inline(never)]
pub fn codes(memory: &mut [u8], codes: &Codes) {
    let mut at = codes.at;
    for (step, count) in codes.steps {
        memory[at] = codes.colour;
        for _ in 0..count {
            at = at.wrapping_add_signed(step);
            memory[at] = codes.colour;
        }
    }
}
