//! Small blocks: 8 by 8 pixels, and rows of 1, 2 or 3.

use super::{
    pixels, Drawings, Workload, ALL, BITMAP, BITMAP_AT, COPY, EXPANSION, FILL, FROM, FROM_AT, SIDE,
    SOURCES, SQUARE, TO,
};
use crate::random::Random;
use crate::speed::limits::{bytes, patterns, Rows};
use crate::writes::{self, map, Point, Write, BITS_1, BITS_8};

/// The pixels of a small block's side.
const EIGHT: usize = 8;

/// The rows of a narrow block.
const TALL: usize = 256;

/// The glyphs of a font, one below another.
const GLYPHS: usize = 256;

/// A small block, and where its pixels come from, if from a map.
#[derive(Clone, Copy)]
struct Small {
    to: Point,
    from: Point,
    colour: u8,
}

impl Small {
    /// The bytes of its rows.
    fn rows(&self, width: usize, count: usize) -> Rows {
        Rows {
            at: byte(self.to),
            apart: SIDE,
            width,
            count,
        }
    }
}

pub fn all() -> Vec<Workload> {
    let eights = [
        eight_by_eight("fills", || fills::<EIGHT>(EIGHT)),
        eight_by_eight("copies", || copies::<EIGHT>(EIGHT)),
        eight_by_eight("glyphs", glyphs),
    ];
    let narrow = [
        Workload::new("8-bit fill, 1 by 256", || fills::<1>(TALL).run_only()),
        Workload::new("8-bit fill, 2 by 256", || fills::<2>(TALL).run_only()),
        Workload::new("8-bit fill, 3 by 256", || fills::<3>(TALL).run_only()),
        Workload::new("8-bit copy, 1 by 256", || copies::<1>(TALL).run_only()),
        Workload::new("8-bit copy, 2 by 256", || copies::<2>(TALL).run_only()),
        Workload::new("8-bit copy, 3 by 256", || copies::<3>(TALL).run_only()),
    ];
    eights.into_iter().flatten().chain(narrow).collect()
}

/// The runs of some drawings, and the writes and runs.
fn eight_by_eight(kind: &str, drawings: fn() -> Drawings) -> [Workload; 2] {
    let run_only = format!("8 by 8 {kind}, run only");
    let with_writes = format!("8 by 8 {kind}, with writes");
    [
        Workload::new(run_only, move || drawings().run_only()).by_drawing(),
        Workload::new(with_writes, move || drawings().with_writes()).by_drawing(),
    ]
}

fn fills<const WIDTH: usize>(height: usize) -> Drawings {
    let blocks = blocks(WIDTH, height);
    let written = |block: &Small| {
        vec![
            writes::foreground(block.colour.into()),
            writes::destination(block.to),
            writes::operations(FILL),
        ]
    };
    let each = blocks.iter().map(written).collect();
    Drawings::new(common(WIDTH, height), each, move |memory| {
        for block in &blocks {
            bytes::set_narrow::<WIDTH>(memory, block.rows(WIDTH, height), block.colour);
        }
    })
}

fn copies<const WIDTH: usize>(height: usize) -> Drawings {
    let blocks = blocks(WIDTH, height);
    let written = |block: &Small| {
        vec![
            writes::source(block.from),
            writes::destination(block.to),
            writes::operations(COPY),
        ]
    };
    let each = blocks.iter().map(written).collect();
    Drawings::new(common(WIDTH, height), each, move |memory| {
        for block in &blocks {
            let from = FROM_AT + byte(block.from);
            bytes::copy_narrow::<WIDTH>(memory, block.rows(WIDTH, height), from);
        }
    })
}

/// Glyphs of random bits, each in a colour on a ground of its own.
fn glyphs() -> Drawings {
    let blocks = blocks(EIGHT, EIGHT);
    let glyph = |block: &Small| byte(block.from) % GLYPHS * EIGHT;
    let written = move |block: &Small| {
        vec![
            writes::foreground(block.colour.into()),
            writes::background((!block.colour).into()),
            writes::pattern((0, glyph(block) as i64)),
            writes::destination(block.to),
            writes::operations(EXPANSION),
        ]
    };
    let each = blocks.iter().map(written).collect();
    Drawings::new(common(EIGHT, EIGHT), each, move |memory| {
        for block in &blocks {
            let pattern = Rows::of_map(BITMAP_AT + glyph(block), 1, EIGHT);
            let colours = (block.colour, !block.colour);
            patterns::glyph(memory, block.rows(EIGHT, EIGHT), pattern, colours);
        }
    })
}

/// The maps, the font among them, and the size of all blocks.
fn common(width: usize, height: usize) -> Vec<Write> {
    let mut writes = map(TO, 0, SQUARE, BITS_8).to_vec();
    writes.extend(map(FROM, FROM_AT as u32, SQUARE, BITS_8));
    let font = (EIGHT as i64, (GLYPHS * EIGHT) as i64);
    writes.extend(map(BITMAP, BITMAP_AT as u32, font, BITS_1));
    writes.extend(pixels(SOURCES, ALL, (0, 0)));
    writes.push(writes::dimensions((width as i64, height as i64)));
    writes
}

/// Blocks anywhere in their maps, fewer where they are tall.
fn blocks(width: usize, height: usize) -> Vec<Small> {
    let mut random = Random::new(5);
    let mut below = |limit: usize| i64::from(random.below(limit as u32));
    let mut any_block = || Small {
        to: (below(SIDE - width + 1), below(SIDE - height + 1)),
        from: (below(SIDE - width + 1), below(SIDE - height + 1)),
        colour: below(256) as u8,
    };
    let count = if height == EIGHT { 256 } else { 64 };
    (0..count).map(|_| any_block()).collect()
}

/// The byte of a pixel in an 8-bit map at 0.
fn byte((x, y): Point) -> usize {
    y as usize * SIDE + x as usize
}
