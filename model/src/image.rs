//! The state image, 115 bytes, low byte first (01, State image).

use crate::codes;
use crate::coprocessor::{is_within_limit, Coprocessor};
use crate::drawing::Drawing;
use crate::operations::Kind;
use crate::registers::Registers;
use crate::start;
use std::ops::{Range, RangeInclusive};

/// The bytes of an image.
pub const LENGTH: usize = 115;

/// The mark XGS.
pub const MARK: Range<usize> = 0..3;
/// The version.
pub const VERSION: Range<usize> = 3..5;
/// The memory's size.
pub const SIZE: Range<usize> = 5..9;
/// The state: idle, drawing, idle after a stop, or drawing and inside.
pub const STATE_AT: usize = 9;
/// All counters of the drawing in hand, which are the next three.
pub const COUNTERS: Range<usize> = POSITIONS_DONE.start..CODES_AT + 1;
/// Positions done in this row, line or code.
pub const POSITIONS_DONE: Range<usize> = 10..12;
/// Rows or codes done.
pub const ROWS_OR_CODES_DONE: Range<usize> = 12..14;
/// Codes in the starting write.
pub const CODES_AT: usize = 14;
/// The map index.
pub const MAP_INDEX_AT: usize = 15;

const MAPS_AT: usize = 16;
const MAP_BYTES: usize = 9;

/// The registers that each map has of its own.
const MAP_OFFSETS: RangeInclusive<u32> = 0x14..=0x1C;

/// Runs of registers: the first byte in the image, the first and the last register offset.
const RUNS: [(usize, u32, u32); 4] = [
    (52, 0x20, 0x2F),
    (68, 0x48, 0x4A),
    (71, 0x4C, 0x63),
    (95, 0x6C, 0x7F),
];

const XGS: u32 = u32::from_le_bytes([b'X', b'G', b'S', 0]);
const VERSION_1: u32 = 1;

const IDLE: u8 = 0;
const DRAWING: u8 = 1;
const STOPPED: u8 = 2;
/// 02, 102: drawing, and inside or after a step that an area boundary looks back at.
pub const DRAWING_INSIDE: u8 = 3;

/// Bytes 9 to 14.
struct Counters {
    state: u8,
    positions_done: u32,
    rows_or_codes_done: u32,
    codes: u8,
}

impl Counters {
    /// Whether bytes 10 to 14 are zero.
    fn are_zero(&self) -> bool {
        self.positions_done == 0 && self.rows_or_codes_done == 0 && self.codes == 0
    }
}

/// The image of a record, whether or not it would load.
pub fn of(coprocessor: &Coprocessor) -> [u8; LENGTH] {
    let mut bytes = [0; LENGTH];
    put(&mut bytes, MARK, XGS);
    put(&mut bytes, VERSION, VERSION_1);
    put(&mut bytes, SIZE, coprocessor.size);
    let counters = counters_of(&coprocessor.drawing);
    bytes[STATE_AT] = counters.state;
    put(&mut bytes, POSITIONS_DONE, counters.positions_done);
    put(&mut bytes, ROWS_OR_CODES_DONE, counters.rows_or_codes_done);
    bytes[CODES_AT] = counters.codes;
    for (at, map, offset) in register_bytes() {
        bytes[at] = coprocessor.registers.byte(map, offset).unwrap_or(0);
    }
    bytes
}

/// The record that an image loads to, if it is accepted.
pub fn loaded(bytes: &[u8]) -> Option<Coprocessor> {
    let bytes: &[u8; LENGTH] = bytes.try_into().ok()?;
    let mut registers = Registers::default();
    for (at, map, offset) in register_bytes() {
        registers.take_byte(map, offset, bytes[at]);
    }
    let size = get(bytes, SIZE);
    let counters = Counters {
        state: bytes[STATE_AT],
        positions_done: get(bytes, POSITIONS_DONE),
        rows_or_codes_done: get(bytes, ROWS_OR_CODES_DONE),
        codes: bytes[CODES_AT],
    };

    let accepted = get(bytes, MARK) == XGS
        && get(bytes, VERSION) == VERSION_1
        && is_within_limit(size)
        && registers.are_reduced();
    if !accepted {
        return None;
    }
    let drawing = match counters.state {
        IDLE if counters.are_zero() => Drawing::Nothing { stopped: false },
        STOPPED if counters.are_zero() => Drawing::Nothing { stopped: true },
        DRAWING => drawing_at(&registers, size, &counters, false)?,
        DRAWING_INSIDE => drawing_at(&registers, size, &counters, true)?,
        _ => return None,
    };
    Some(Coprocessor {
        size,
        registers,
        drawing,
    })
}

/// Where the byte of a register lies while a map is selected, if a register is listed there.
pub fn place(map: usize, offset: u32) -> Option<usize> {
    let map = if MAP_OFFSETS.contains(&offset) {
        map
    } else {
        0
    };
    register_bytes()
        .find(|(_, of, byte)| (*of, *byte) == (map, offset))
        .map(|(at, _, _)| at)
}

/// Where each register byte of the image lies: its place in the image, its map and its register offset.
fn register_bytes() -> impl Iterator<Item = (usize, usize, u32)> {
    let index = [(MAP_INDEX_AT, 0, 0x12)];
    let maps = (0..4).flat_map(|map| {
        let first = MAPS_AT + map * MAP_BYTES;
        (first..first + MAP_BYTES)
            .zip(MAP_OFFSETS)
            .map(move |(at, offset)| (at, map, offset))
    });
    let runs = RUNS
        .into_iter()
        .flat_map(|(at, first, last)| (at..).zip(first..=last).map(|(at, offset)| (at, 0, offset)));
    index.into_iter().chain(maps).chain(runs)
}

/// What a drawing puts in bytes 9 to 14.
fn counters_of(drawing: &Drawing) -> Counters {
    let (state, positions_done, rows_or_codes_done, codes) = match *drawing {
        Drawing::Nothing { stopped: false } => (IDLE, 0, 0, 0),
        Drawing::Nothing { stopped: true } => (STOPPED, 0, 0, 0),
        Drawing::Line { done, rose } => (drawing_state(rose), done, 0, 0),
        Drawing::Codes { count, code, done } => (DRAWING, done, code, count),
        Drawing::Block { column, row } => (DRAWING, column, row, 0),
        Drawing::Fill {
            column,
            row,
            inside,
        } => (drawing_state(inside), column, row, 0),
    };
    Counters {
        state,
        positions_done: u32::from(positions_done),
        rows_or_codes_done: u32::from(rows_or_codes_done),
        codes,
    }
}

/// The state of a drawing with its bit.
fn drawing_state(bit: bool) -> u8 {
    if bit {
        DRAWING_INSIDE
    } else {
        DRAWING
    }
}

/// States 1 and 3: the drawing of the stored function at the counters, if every rule of that state holds.
fn drawing_at(registers: &Registers, size: u32, counters: &Counters, bit: bool) -> Option<Drawing> {
    let done = counters.positions_done as u16;
    let rows_or_codes_done = counters.rows_or_codes_done as u16;
    // Counters not of that function are zero, 12 too for a line.
    let drawing = match registers.fields().kind()? {
        Kind::Line if rows_or_codes_done == 0 && counters.codes == 0 => {
            Drawing::Line { done, rose: bit }
        }
        Kind::Block if counters.codes == 0 => Drawing::Block {
            column: done,
            row: rows_or_codes_done,
        },
        Kind::Fill if counters.codes == 0 => Drawing::Fill {
            column: done,
            row: rows_or_codes_done,
            inside: bit,
        },
        Kind::Codes => Drawing::Codes {
            count: counters.codes,
            code: rows_or_codes_done,
            done,
        },
        _ => return None,
    };
    let goes_on = start::check(registers, size).is_ok()
        && drawing.has_position(registers)
        && (!bit || may_have_bit(registers, &drawing))
        && codes_are_right(registers, &drawing)
        && start::pointers_lie_in_maps(registers);
    goes_on.then_some(drawing)
}

/// 02, 102: a position is done in the row of a fill, or in a line that draws an area boundary, in either direction of Y.
fn may_have_bit(registers: &Registers, drawing: &Drawing) -> bool {
    match *drawing {
        Drawing::Line { done, .. } => done > 0 && registers.fields().draws_boundary(),
        Drawing::Fill { column, .. } => column > 0,
        _ => false,
    }
}

/// Codes number 1, 2 or 4, and none up to the current one, itself included, is 00.
fn codes_are_right(registers: &Registers, drawing: &Drawing) -> bool {
    match *drawing {
        Drawing::Codes { count, code, .. } => {
            matches!(count, 1 | 2 | 4)
                && codes::of_write(registers.steps, count)
                    .into_iter()
                    .take(usize::from(code) + 1)
                    .all(|byte| byte != codes::STOP)
        }
        _ => true,
    }
}

fn put(bytes: &mut [u8; LENGTH], part: Range<usize>, number: u32) {
    let length = part.len();
    bytes[part].copy_from_slice(&number.to_le_bytes()[..length]);
}

/// The number that a part of the bytes is, the lowest byte first.
pub fn get(bytes: &[u8], part: Range<usize>) -> u32 {
    bytes[part]
        .iter()
        .rfold(0, |number, byte| number << 8 | u32::from(*byte))
}
