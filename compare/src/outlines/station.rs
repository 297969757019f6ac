//! An outline drawn and filled through the proved library's calls, as a design station would.

use super::edges::Edge;
use super::shapes::Stroke;
use crate::board::{self, IMAGE};
use crate::guarded::Guarded;
use crate::random::Random;
use crate::writes::{
    self, Point, Write, BITS_1, BOUNDARY, CODES, LINE, MIX_DESTINATION, MIX_SOURCE, MIX_XOR,
    MOTOROLA,
};
use model::codes::DIRECTIONS;

/// The mask map, map A, which is filled, and map B, which has the outline.
const MASK: u32 = 0;
const FILLED: u32 = 1;
const OUTLINE: u32 = 2;

/// What codes and lines are drawn as.
const OUTLINED: u32 = OUTLINE << 16 | BOUNDARY;

/// A fill of map A by map B, and of map B by itself.
const FILL: u32 = 0x0A01_2000;
const FILL_IN_PLACE: u32 = 0x0A02_2000;
const MASK_BOUNDARY: u32 = 0x40;

/// The octant bit of negative Y.
const UP: u32 = 0b010;

/// How a fill is done.
#[derive(Clone, Copy, Debug)]
pub struct Manner {
    pub colour: u32,
    pub is_up: bool,
    /// The corner and the size of a mask boundary.
    pub mask: Option<(Point, Point)>,
    /// The positions of each run.
    pub allowance: u32,
}

impl Manner {
    /// Whether the mask boundary lets a pixel be filled.
    pub fn shows(&self, (x, y): Point) -> bool {
        self.mask.is_none_or(|(corner, size)| {
            let (x, y) = (x - corner.0, y - corner.1);
            (0..size.0).contains(&x) && (0..size.1).contains(&y)
        })
    }
}

/// A state image and its memory, in which the outline's map lies before the filled one.
pub struct Station {
    image: Guarded,
    memory: Guarded,
    size: Point,
    /// The first byte of the filled map, and the bits of its pixels.
    filled_at: usize,
    bits: usize,
    /// The order bits of the outline's map and of the filled one.
    pub orders: [u32; 2],
}

impl Station {
    /// A station for maps of this size, each in any order, of which the outline's is empty and the other has random pixels.
    pub fn new(random: &mut Random, size: Point) -> Result<Station, String> {
        let pixels = (size.0 * size.1) as usize;
        let format = random.below(4);
        let bits = 1 << format;
        let orders = [(); 2].map(|()| random.pick(&[0, MOTOROLA]));
        let filled_at = pixels.div_ceil(8);
        let mut memory = vec![0; filled_at];
        memory.extend((0..(pixels * bits).div_ceil(8)).map(|_| random.word() as u8));
        let mut station = Station {
            image: Guarded::of(&[0; IMAGE]),
            memory: Guarded::of(&memory),
            size,
            filled_at,
            bits,
            orders,
        };
        match board::fresh(station.image.bytes_mut(), memory.len() as u32) {
            0 => {}
            refusal => return Err(format!("fresh {}: {refusal}", memory.len())),
        }
        let [outline, filled] = [BITS_1 | orders[0], format | orders[1]];
        station.write(&writes::map(OUTLINE, 0, size, outline))?;
        station.write(&writes::map(FILLED, filled_at as u32, size, filled))?;
        station.write(&[
            writes::no_compare(),
            writes::mixes(MIX_XOR, 0),
            writes::planes(1),
            writes::foreground(1),
        ])?;
        Ok(station)
    }

    /// Begins a loop at a point.
    pub fn begin(&mut self, at: Point) -> Result<(), String> {
        self.write(&[writes::destination(at)])
    }

    /// A line from where the last one ended, by 003's terms.
    pub fn line(&mut self, edge: &Edge) -> Result<(), String> {
        let octant = writes::octant(edge.from, edge.to);
        self.write(&writes::line(edge.from, edge.to))?;
        self.write(&[writes::operations(LINE | OUTLINED | octant)])?;
        self.run(edge.larger() as u64 + 1, u32::MAX)
    }

    /// Up to four runs of steps in one write, which has 1, 2 or 4 codes; where the runs are fewer it ends in a stop.
    pub fn codes(&mut self, runs: &[Stroke]) -> Result<(), String> {
        let word = writes::word(runs.iter().map(|run| code(&run.edge)));
        let positions: i64 = runs.iter().map(|run| run.edge.larger() + 1).sum();
        let length = (runs.len() as u32).next_power_of_two();
        self.write(&[
            writes::operations(CODES | OUTLINED),
            writes::codes(length, word),
        ])?;
        self.run(positions as u64, u32::MAX)
    }

    /// Fills map A where the outline has its inside.
    pub fn fill(&mut self, manner: &Manner) -> Result<(), String> {
        self.write(&[writes::mixes(MIX_SOURCE, MIX_DESTINATION)])?;
        self.start_fill(FILL, manner)
    }

    /// Makes the outline's map 1 where it has its inside, and 0 elsewhere (003:2104).
    pub fn fill_in_place(&mut self, manner: &Manner) -> Result<(), String> {
        self.write(&[writes::mixes(MIX_SOURCE, MIX_SOURCE), writes::background(0)])?;
        self.start_fill(FILL_IN_PLACE, manner)
    }

    fn start_fill(&mut self, operations: u32, manner: &Manner) -> Result<(), String> {
        let corner = (0, if manner.is_up { self.size.1 - 1 } else { 0 });
        let mut operations = operations;
        if manner.is_up {
            operations |= UP;
        }
        if let Some((corner, size)) = manner.mask {
            operations |= MASK_BOUNDARY;
            self.write(&writes::map(MASK, 0, size, BITS_1))?;
            self.write(&[writes::mask_origin(corner)])?;
        }
        self.write(&[
            writes::planes(u32::MAX),
            writes::foreground(manner.colour),
            writes::dimensions(self.size),
            writes::pattern(corner),
            writes::destination(corner),
            writes::operations(operations),
        ])?;
        self.run((self.size.0 * self.size.1) as u64, manner.allowance)
    }

    /// The pixels of the outline's map, row after row.
    pub fn outline(&self) -> Vec<bool> {
        let pixels = self.pixels(0, 1, self.orders[0]);
        pixels.map(|pixel| pixel == 1).collect()
    }

    /// The pixels of the filled map, row after row.
    pub fn filled(&self) -> Vec<u32> {
        let pixels = self.pixels(self.filled_at, self.bits, self.orders[1]);
        pixels.collect()
    }

    /// The pixels of a map from a byte on, of so many bits and in the order of an order bit.
    fn pixels(&self, first: usize, bits: usize, order: u32) -> impl Iterator<Item = u32> + '_ {
        let memory = &self.memory.bytes()[first..];
        let count = (self.size.0 * self.size.1) as usize;
        let ones = (1 << bits) - 1;
        (0..count).map(move |pixel| pixel * bits).map(move |bit| {
            let shift = match order {
                MOTOROLA => 8 - bits - bit % 8,
                _ => bit % 8,
            };
            u32::from(memory[bit / 8]) >> shift & ones
        })
    }

    /// All ones of a pixel of the filled map.
    pub fn ones(&self) -> u32 {
        (1 << self.bits) - 1
    }

    /// Whether no byte around the image or the memory was touched.
    pub fn are_guards_kept(&self) -> bool {
        self.image.are_guards_kept() && self.memory.are_guards_kept()
    }

    fn write(&mut self, writes: &[Write]) -> Result<(), String> {
        for (offset, length, value) in writes {
            match board::write(self.image.bytes_mut(), *offset, *length, *value) {
                0 => {}
                refusal => return Err(format!("write {offset:X} {length} {value:X}: {refusal}")),
            }
        }
        Ok(())
    }

    /// Runs of so many positions each, to the end, which comes after all of them.
    fn run(&mut self, positions: u64, allowance: u32) -> Result<(), String> {
        let mut left = positions;
        loop {
            let memory = self.memory.bytes_mut();
            let answer = board::run(self.image.bytes_mut(), memory, allowance);
            let right = left.min(u64::from(allowance));
            if answer != (0, right as u32) {
                return Err(format!(
                    "run {allowance}: {answer:?} with {left} positions left"
                ));
            }
            if right == 0 {
                return Ok(());
            }
            left -= right;
        }
    }
}

/// The drawing code of an edge.
fn code(edge: &Edge) -> u8 {
    let (right, down) = edge.differences();
    let step = (right.signum(), down.signum());
    let direction = DIRECTIONS.iter().position(|one| *one == step);
    let direction = direction.expect("a code has steps") as u8;
    direction << 5 | 0x10 | edge.larger() as u8
}
