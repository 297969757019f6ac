//! The work that is timed, all of it prepared through register writes.

mod copies;
mod fills;
mod lines;
mod outlines;
mod patterns;
mod small;

use super::limits::{Limit, Rows};
use super::runners::State;
use crate::random::Random;
use crate::writes::{self, Point, Write, BITS_1, BITS_2, BITS_4, BLOCK, MIX_SOURCE, MIX_XOR};

/// The bytes of every workload's memory.
const SIZE: u32 = 1 << 20;

/// The pixels of most maps, and of a side of theirs.
const SQUARE: Point = (SIDE as i64, SIDE as i64);
const SIDE: usize = 512;

/// The maps that are drawn into, copied from, and picked from; the mask is map 0.
const MASK: u32 = 0;
const TO: u32 = 1;
const FROM: u32 = 2;
const BITMAP: u32 = 3;

/// Where the last two of them lie; the first lies at 0.
const FROM_AT: usize = 0x4_0000;
const BITMAP_AT: usize = 0x8_0000;

/// Pixel operations: colours or source pixels into the first map, by the foreground alone or by the bits of a pattern.
const FILL: u32 = BLOCK | TO << 16;
const COPY: u32 = 0x2800_8000 | FROM << 20 | TO << 16;
const EXPANSION: u32 = 0x0800_3000 | TO << 16;
const AREA_FILL: u32 = 0x0A00_3000 | TO << 16;
const MASKED: u32 = 0x80;

/// The octant bit of negative X.
const LEFTWARDS: u32 = 0b100;

/// Formats of less than a byte a pixel, and the first column and the width of rows that begin and end within a byte in each of them.
const SMALL_PIXELS: [u32; 3] = [BITS_1, BITS_2, BITS_4];
const RAGGED: (usize, usize) = (3, 506);

/// Mixes of foreground and background, and all planes.
const SOURCES: (u32, u32) = (MIX_SOURCE, MIX_SOURCE);
const XORS: (u32, u32) = (MIX_XOR, MIX_XOR);
const ALL: u32 = u32::MAX;

/// A name for work, and how its time is told.
pub struct Workload {
    pub name: String,
    /// Whether time is given for each drawing, writes included, or for each position.
    pub is_by_drawing: bool,
    /// Another workload, of whose time this one's is told as a multiple.
    pub other: Option<&'static str>,
    prepare: Box<dyn Fn() -> Work>,
}

impl Workload {
    fn new(name: impl Into<String>, prepare: impl Fn() -> Work + 'static) -> Workload {
        Workload {
            name: name.into(),
            is_by_drawing: false,
            other: None,
            prepare: Box::new(prepare),
        }
    }

    /// The same, told for each drawing.
    fn by_drawing(self) -> Workload {
        Workload {
            is_by_drawing: true,
            ..self
        }
    }

    /// The same, told as a multiple of another one's time too.
    fn beside(self, other: &'static str) -> Workload {
        Workload {
            other: Some(other),
            ..self
        }
    }

    /// The work, prepared anew.
    pub fn work(&self) -> Work {
        (self.prepare)()
    }
}

/// Every workload, in the order of the table.
pub fn all() -> Vec<Workload> {
    [
        fills::all(),
        copies::all(),
        patterns::all(),
        outlines::all(),
        lines::all(),
        small::all(),
    ]
    .into_iter()
    .flatten()
    .collect()
}

/// A drawing: the state to take up first, if any, and the writes before its run.
pub struct Job {
    pub state: Option<State>,
    pub writes: Vec<Write>,
}

/// Drawings on one memory, and what they come to by hand.
pub struct Work {
    pub memory: Vec<u8>,
    pub jobs: Vec<Job>,
    pub limit: Limit,
}

/// Drawings on a memory of random bytes: the writes that come before all of them, and the writes of each.
struct Drawings {
    common: Vec<Write>,
    each: Vec<Vec<Write>>,
    limit: Limit,
}

impl Drawings {
    fn new(
        common: Vec<Write>,
        each: Vec<Vec<Write>>,
        limit: impl Fn(&mut [u8]) + 'static,
    ) -> Drawings {
        Drawings {
            common,
            each,
            limit: Box::new(limit),
        }
    }

    /// The work of their runs alone: each drawing is started before the time is taken.
    fn run_only(self) -> Work {
        let first = State::after(SIZE, &self.common);
        let job = |writes: &Vec<Write>| Job {
            state: Some(first.then(writes)),
            writes: Vec::new(),
        };
        Work {
            memory: random_bytes(),
            jobs: self.each.iter().map(job).collect(),
            limit: self.limit,
        }
    }

    /// The work of their writes and runs.
    fn with_writes(self) -> Work {
        let mut state = Some(State::after(SIZE, &self.common));
        let job = |writes| Job {
            state: state.take(),
            writes,
        };
        Work {
            memory: random_bytes(),
            jobs: self.each.into_iter().map(job).collect(),
            limit: self.limit,
        }
    }
}

/// One drawing, started before the time is taken.
fn one(writes: Vec<Write>, limit: impl Fn(&mut [u8]) + 'static) -> Work {
    Drawings::new(Vec::new(), vec![writes], limit).run_only()
}

fn random_bytes() -> Vec<u8> {
    let mut random = Random::new(1);
    (0..SIZE).map(|_| random.word() as u8).collect()
}

/// Both mixes, compare never, the planes, and both colours.
fn pixels(mixes: (u32, u32), planes: u32, colours: (u8, u8)) -> [Write; 5] {
    [
        writes::mixes(mixes.0, mixes.1),
        writes::no_compare(),
        writes::planes(planes),
        writes::foreground(colours.0.into()),
        writes::background(colours.1.into()),
    ]
}

/// Some columns of a map at 0, measured in the bytes or the bits of a pixel.
const fn columns((first, width): (usize, usize), pixel: usize) -> Rows {
    Rows {
        at: first * pixel,
        apart: SIDE * pixel,
        width: width * pixel,
        count: SIDE,
    }
}

/// The size of a block and its start.
fn block(size: Point, operations: u32) -> [Write; 2] {
    [writes::dimensions(size), writes::operations(operations)]
}
