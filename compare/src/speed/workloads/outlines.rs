//! A leaf: its outline as area boundaries in a 1-bit map, and its inside by that outline in an 8-bit one.

use super::{
    block, one, pixels, Drawings, Work, Workload, ALL, AREA_FILL, BITMAP, BITMAP_AT, SIDE, SQUARE,
    TO, XORS,
};
use crate::speed::limits::lines::{self, Line};
use crate::speed::limits::{patterns, Rows};
use crate::writes::{
    self, map, Point, Write, BITS_1, BITS_8, BOUNDARY, LINE, MIX_DESTINATION, MIX_SOURCE,
};

/// The corners of the outline.
const LEAF: [Point; 6] = [
    (0, 0),
    (240, 50),
    (420, 210),
    (500, 500),
    (215, 425),
    (50, 240),
];

const COLOUR: u8 = 0x58;

/// The rows of the 8-bit map and of the outline's.
const ROWS: Rows = Rows::of_map(0, SIDE, SIDE);
const BITS: Rows = Rows::of_map(BITMAP_AT, SIDE / 8, SIDE);

pub fn all() -> Vec<Workload> {
    vec![
        Workload::new("leaf outline, mode 11, 1 bit", outline),
        Workload::new("leaf area fill to 8 bits, 512 by 512", fill),
    ]
}

/// The edges of the leaf, from each corner to the next.
fn edges() -> impl Iterator<Item = (Point, Point)> {
    LEAF.into_iter().zip(LEAF.into_iter().cycle().skip(1))
}

/// Lines in all directions, each of which turns the pixels of its boundary.
fn outline() -> Work {
    let mut common = map(BITMAP, BITMAP_AT as u32, SQUARE, BITS_1).to_vec();
    common.extend(pixels(XORS, ALL, (1, 0)));
    let limit = |memory: &mut [u8]| {
        for (from, to) in edges() {
            let line = Line::between(from, to, SQUARE.0, 1);
            lines::turned_boundary(&mut memory[BITMAP_AT..], &line);
        }
    };
    let mut work = Drawings::new(common, edges().map(boundary).collect(), limit).run_only();
    empty(&mut work.memory);
    work
}

/// The writes of one line.
fn boundary((from, to): (Point, Point)) -> Vec<Write> {
    let mut writes = writes::line(from, to).to_vec();
    let operations = LINE | BITMAP << 16 | BOUNDARY | writes::octant(from, to);
    writes.extend([writes::destination(from), writes::operations(operations)]);
    writes
}

/// The foreground's colour inside, and outside the pixels stay.
fn fill() -> Work {
    let mut writes = map(TO, 0, SQUARE, BITS_8).to_vec();
    writes.extend(map(BITMAP, BITMAP_AT as u32, SQUARE, BITS_1));
    writes.extend(pixels((MIX_SOURCE, MIX_DESTINATION), ALL, (COLOUR, 0)));
    writes.extend(block(SQUARE, AREA_FILL));
    let mut work = one(writes, |memory| {
        patterns::fill_between(memory, ROWS, BITS, COLOUR)
    });
    empty(&mut work.memory);
    for job in outline().jobs {
        let mut record = job.state.expect("a started line").record;
        assert_eq!(record.run(&mut work.memory, u32::MAX).0, 0);
    }
    work
}

/// Clears the outline's map.
fn empty(memory: &mut [u8]) {
    memory[BITMAP_AT..][..SIDE * SIDE / 8].fill(0);
}
