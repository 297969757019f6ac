//! Drawings of the proved library, each a few register writes and a run.

use crate::board::{self, IMAGE};
use crate::writes::{
    self, Point, Write, BLOCK, BOUNDARY, CODES, LINE, MIX_DESTINATION, MIX_SOURCE, MIX_XOR,
};

/// The map index of the mask, and of the maps that a drawing names.
pub const MASK: u32 = 0;
pub const CLOTH: u32 = 1;
pub const SOURCE: u32 = 2;
pub const BITMAP: u32 = 3;

const TILED_BLOCK: u32 = 0x0800_3000;
const INVERTING_BLOCK_FROM_SOURCE: u32 = 0x2920_8000;
const FILL: u32 = 0x0A00_3000;
const MASKED: u32 = 0x0000_0080;

/// A state image, its memory, and the positions drawn so far.
pub struct Loom {
    image: [u8; IMAGE],
    pub memory: Vec<u8>,
    pub positions: u64,
}

impl Loom {
    /// A fresh state whose mixes take the source, in all planes, whatever the destination.
    pub fn new(size: u32) -> Loom {
        let mut image = [0; IMAGE];
        assert_eq!(board::fresh(&mut image, size), 0);
        let mut loom = Loom {
            image,
            memory: vec![0; size as usize],
            positions: 0,
        };
        loom.write(&[
            writes::mixes(MIX_SOURCE, MIX_SOURCE),
            writes::no_compare(),
            writes::planes(0xFF),
        ]);
        loom
    }

    fn write(&mut self, writes: &[Write]) {
        for (offset, length, value) in writes {
            let refusal = board::write(&mut self.image, *offset, *length, *value);
            assert_eq!(refusal, 0, "write {offset:X} {length} {value:X}");
        }
    }

    /// Runs the drawing in hand to its end.
    fn run(&mut self) {
        let (refusal, done) = board::run(&mut self.image, &mut self.memory, u32::MAX);
        assert_eq!(refusal, 0, "run");
        self.positions += u64::from(done);
    }

    /// The writes, of which the last starts a drawing, and that drawing to its end.
    fn draw(&mut self, writes: &[Write]) {
        self.write(writes);
        self.run();
    }

    /// Lays a map into the memory.
    pub fn map(&mut self, index: u32, base: u32, size: Point, format: u32) {
        self.write(&writes::map(index, base, size, format));
    }

    /// A block of one colour.
    pub fn block(&mut self, map: u32, at: Point, size: Point, colour: u32) {
        self.draw(&[
            writes::foreground(colour),
            writes::dimensions(size),
            writes::destination(at),
            writes::operations(BLOCK | map << 16),
        ]);
    }

    /// A block of the cloth in two colours, picked by the tile in the bitmap, which begins at the cloth's corner.
    pub fn tiled_block(&mut self, at: Point, size: Point, colours: (u32, u32)) {
        self.draw(&[
            writes::foreground(colours.1),
            writes::background(colours.0),
            writes::dimensions(size),
            writes::pattern(at),
            writes::destination(at),
            writes::operations(TILED_BLOCK | CLOTH << 16),
        ]);
    }

    /// A block of the cloth of which only the mask's shape shows, the mask lying at its corner.
    pub fn masked_block(&mut self, at: Point, size: Point, colour: u32) {
        self.draw(&[
            writes::foreground(colour),
            writes::dimensions(size),
            writes::mask_origin(at),
            writes::destination(at),
            writes::operations(BLOCK | CLOTH << 16 | MASKED),
        ]);
    }

    /// Turns rows of the source map, from the top, upside down into the cloth, from a row upwards.
    pub fn turned_copy(&mut self, size: Point, bottom_row: i64) {
        self.draw(&[
            writes::dimensions(size),
            writes::source((0, 0)),
            writes::destination((0, bottom_row)),
            writes::operations(INVERTING_BLOCK_FROM_SOURCE | SOURCE << 20 | CLOTH << 16),
        ]);
    }

    /// A line with both its ends.
    pub fn line(&mut self, map: u32, from: Point, to: Point, colour: u32) {
        self.line_of(LINE | map << 16, from, to, colour);
    }

    /// Turns the bitmap's pixels along the area boundary of a closed outline.
    pub fn outline(&mut self, points: &[Point]) {
        self.write(&[writes::mixes(MIX_XOR, MIX_XOR)]);
        let next = points.iter().cycle().skip(1);
        for (from, to) in points.iter().zip(next) {
            self.line_of(LINE | BITMAP << 16 | BOUNDARY, *from, *to, 1);
        }
        self.write(&[writes::mixes(MIX_SOURCE, MIX_SOURCE)]);
    }

    /// Fills a block of the cloth where the outline in the bitmap, which begins at the block's corner, has its inside.
    pub fn fill(&mut self, at: Point, size: Point, colour: u32) {
        self.draw(&[
            writes::mixes(MIX_SOURCE, MIX_DESTINATION),
            writes::foreground(colour),
            writes::dimensions(size),
            writes::pattern((0, 0)),
            writes::destination(at),
            writes::operations(FILL | CLOTH << 16),
        ]);
        self.write(&[writes::mixes(MIX_SOURCE, MIX_SOURCE)]);
    }

    fn line_of(&mut self, operations: u32, from: Point, to: Point, colour: u32) {
        self.write(&writes::line(from, to));
        self.draw(&[
            writes::foreground(colour),
            writes::destination(from),
            writes::operations(operations | writes::octant(from, to)),
        ]);
    }

    /// Step codes on the cloth, four to a write, the last write filled up with stops.
    pub fn codes(&mut self, at: Point, colour: u32, codes: &[u8]) {
        self.write(&[
            writes::foreground(colour),
            writes::destination(at),
            writes::operations(CODES | CLOTH << 16),
        ]);
        for four in codes.chunks(4) {
            let word = writes::word(four.iter().copied());
            self.draw(&[writes::codes(4, word)]);
        }
    }
}
