//! A block, line or codes as planned, in pixels, and the memory and writes that it comes to.

use super::reads::{Apart, Read};
use crate::random::Random;
use crate::random_drawings::RandomDrawing;
use crate::writes::{self, Point, Write};
use model::operations;
use model::pixels;

/// One in so many memories has bytes beyond the numbers of 16 bits.
const FAR: u32 = 300;

/// A drawing, and the maps around it.
#[derive(Clone, Debug)]
pub struct Plan {
    pub function: u32,
    /// The octant: the signs of X and Y, and whether Y is major, which does not touch blocks and codes.
    pub is_back: bool,
    pub is_up: bool,
    pub is_steep: bool,
    pub walk: Walk,
    /// The pixel code of destination and source, and the destination's order bit.
    pub code: u32,
    pub order: u32,
    /// The size of the block, or of what a line or codes go through, and its left upper corner in the destination.
    pub size: Point,
    pub corner: Point,
    /// The destination's size.
    pub map: Point,
    pub source: Read,
    /// The pattern map, which not every pattern is.
    pub tile: Read,
    pub takes_source: bool,
    pub background_takes_source: bool,
    pub mix: u32,
    pub background_mix: u32,
    pub planes: u32,
    pub condition: u32,
    pub drawing_mode: u32,
    pub pattern: Pattern,
    pub mask_mode: u32,
    /// The mask's origin and size.
    pub mask: (Point, Point),
}

/// How one position follows another.
#[derive(Clone, Debug, PartialEq, Eq)]
pub enum Walk {
    Rows,
    /// By E, K1 and K2.
    Line([u32; 3]),
    /// By these codes, of which there are 1, 2 or 4.
    Codes(Vec<u8>),
}

/// What picks the foreground.
#[derive(Clone, Copy, Debug, PartialEq, Eq)]
pub enum Pattern {
    Foreground,
    FromSource,
    Map,
}

impl Plan {
    /// The pixels of a byte.
    pub fn in_byte(&self) -> i64 {
        8 >> self.code
    }

    /// The destination of the first position.
    pub fn to(&self) -> Point {
        let goes_up = self.is_up != (self.function == operations::INVERTING_PXBLT);
        let end = |first: i64, length: i64, is_at_end: bool| match is_at_end {
            true => first + length - 1,
            false => first,
        };
        (
            end(self.corner.0, self.size.0, self.is_back),
            end(self.corner.1, self.size.1, goes_up),
        )
    }

    /// Moves the drawing so that its first position is this.
    pub fn begin_at(&mut self, (x, y): Point) {
        let (first_x, first_y) = self.to();
        self.corner.0 += x - first_x;
        self.corner.1 += y - first_y;
    }

    /// The map that is read beside the destination, a pattern map or the source, and its pixels of a byte.
    pub fn read(&mut self) -> (&mut Read, i64) {
        match self.pattern {
            Pattern::Map => (&mut self.tile, 8),
            Pattern::Foreground | Pattern::FromSource => (&mut self.source, 8 >> self.code),
        }
    }

    /// Moves the source by less than a byte, so that its first pixel lies so many pixels further on in its byte than the destination's.
    pub fn bring_in_phase(&mut self, further: i64) {
        let in_byte = self.in_byte();
        let behind = place(self.map, self.to()) - place(self.source.size, self.source.from);
        let moved = self.source.from.0 + (behind + further).rem_euclid(in_byte);
        match moved < self.source.size.0 {
            true => self.source.from.0 = moved,
            false => self.source.from.0 = (moved - in_byte).max(0),
        }
    }

    /// Lays the map that is read so that its first row has so many bytes between it and the destination's, or shares some with it.
    pub fn bring_near(&mut self, between: i64, is_before: bool) {
        let (length, is_back) = (self.size.0, self.is_back);
        // The lowest and highest byte of a row, from the map's base.
        let bytes = |map: Point, first: Point, in_byte: i64| {
            let at = place(map, first);
            let lowest = if is_back { at - length + 1 } else { at };
            [lowest, lowest + length - 1].map(|pixel| pixel.div_euclid(in_byte))
        };
        let drawn = bytes(self.map, self.to(), self.in_byte());
        let (read, in_byte) = self.read();
        let taken = bytes(read.size, read.from, in_byte);
        read.apart = Apart::Bytes(match is_before {
            true => drawn[0] - 1 - between - taken[1],
            false => drawn[1] + 1 + between - taken[0],
        });
    }

    /// The memory and the writes, of which the last starts the drawing; what the plan does not say is random.
    pub fn drawing(&self, random: &mut Random) -> RandomDrawing {
        let bits = 1 << self.code;
        let bytes = |size: Point, bits| pixels::bytes_needed(size.0 as u32, size.1 as u32, bits);
        let mask = match self.mask_mode {
            operations::MASK_ENABLED => bytes(self.mask.1, 1),
            _ => 0,
        };
        let needed = [
            mask,
            bytes(self.map, bits),
            bytes(self.source.size, bits),
            bytes(self.tile.size, 1),
        ]
        .map(|bytes| bytes as u32);
        let slack = match random.once_in(FAR) {
            true => 70_000,
            false => random.pick(&[0, 1, 40, 300]),
        };
        let reads = [&self.source, &self.tile];
        let space: u32 = reads.into_iter().map(Read::space).sum();
        let size = needed.into_iter().max().unwrap_or(1) + space + random.below(slack + 1);
        let mut bases = needed.map(|needed| base(random, size - needed));
        for (read, place) in reads.into_iter().zip(2..) {
            match read.apart {
                Apart::Anyhow => {}
                Apart::Same => bases[place] = bases[1],
                Apart::Bytes(apart) => {
                    let last = size - needed[1].max(needed[place]) - space;
                    let before = (-apart).max(0) as u32;
                    bases[1] = random.below(last + 1) + before;
                    bases[place] = (i64::from(bases[1]) + apart) as u32;
                }
            }
        }
        RandomDrawing {
            memory: (0..size).map(|_| random.word() as u8).collect(),
            writes: self.writes(random, bases),
        }
    }

    /// The writes, with the bases of mask, destination, source and pattern.
    fn writes(&self, random: &mut Random, bases: [u32; 4]) -> Vec<Write> {
        let first = random.below(3);
        let [destination, other, third] = [0, 1, 2].map(|next| 1 + (first + next) % 3);
        let source = match self.source.apart {
            Apart::Same => destination,
            _ => other,
        };
        // A boundary alone has no pixels, so that base and format may be anything.
        let (mask_base, mask_format) = match self.mask_mode {
            operations::MASK_ENABLED => (bases[0], random.pick(&[0, writes::MOTOROLA])),
            _ => (random.word(), random.below(16)),
        };
        let maps = [
            (third, bases[3], self.tile.size, self.tile.order),
            (
                source,
                bases[2],
                self.source.size,
                self.code | self.source.order,
            ),
            (destination, bases[1], self.map, self.code | self.order),
            (0, mask_base, self.mask.1, mask_format),
        ];
        let mut all: Vec<Write> = maps
            .into_iter()
            .flat_map(|(index, base, size, format)| writes::map(index, base, size, format))
            .collect();
        all.extend([
            writes::mixes(self.mix, self.background_mix),
            (0x4A, 1, self.condition),
            (0x4C, 4, random.word()),
            writes::planes(self.planes),
            writes::foreground(random.word()),
            writes::background(random.word()),
            writes::mask_origin(self.mask.0),
            writes::source(self.source.from),
            writes::pattern(self.tile.from),
            writes::destination(self.to()),
        ]);
        all.extend(self.walk_writes(random));
        let pattern = match self.pattern {
            Pattern::Foreground => operations::PATTERN_FOREGROUND,
            Pattern::FromSource => operations::PATTERN_FROM_SOURCE,
            Pattern::Map => third,
        };
        let fields = source << 20 | destination << 16 | pattern << 12;
        all.push(writes::operations(fields | self.other_fields()));
        if let Walk::Codes(codes) = &self.walk {
            let word = writes::word(codes.iter().copied());
            all.push(writes::codes(codes.len() as u32, word));
        }
        all
    }

    /// The writes of dimensions, of a line's terms, and of steps before those of codes.
    fn walk_writes(&self, random: &mut Random) -> Vec<Write> {
        let (width, height) = self.size;
        match &self.walk {
            Walk::Rows => vec![writes::dimensions(self.size)],
            Walk::Codes(_) => vec![(0x2C, 4, random.word())],
            Walk::Line(terms) => {
                let terms = [0x20, 0x24, 0x28].into_iter().zip(terms);
                let mut all: Vec<Write> = terms.map(|(offset, term)| (offset, 4, *term)).collect();
                all.push(writes::dimensions(match self.is_steep {
                    true => (height, width),
                    false => (width, height),
                }));
                all
            }
        }
    }

    /// The fields of the pixel operations that name no map.
    fn other_fields(&self) -> u32 {
        let field = |is_source| match is_source {
            true => operations::SOURCE_MAP,
            false => operations::COLOUR,
        };
        let octant = [self.is_back, self.is_up, self.is_steep];
        let octant = octant
            .iter()
            .fold(0, |bits, bit| bits << 1 | u32::from(*bit));
        field(self.background_takes_source) << 30
            | field(self.takes_source) << 28
            | self.function << 24
            | self.mask_mode << 6
            | self.drawing_mode << 4
            | octant
    }
}

/// The pixels of a map before one of them.
fn place(map: Point, at: Point) -> i64 {
    at.1 * map.0 + at.0
}

/// A base up to the last one, often at one of the memory's ends.
fn base(random: &mut Random, last: u32) -> u32 {
    match random.below(3) {
        0 => 0,
        1 => last,
        _ => random.below(last + 1),
    }
}
