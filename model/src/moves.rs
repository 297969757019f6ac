//! The move to the next position (01, The functions; 01, Maps and pointers).

use crate::circle::{self, Circle};
use crate::codes;
use crate::drawing::Drawing;
use crate::operations::INVERTING_PXBLT;
use crate::registers::Registers;

/// Moves pointers, E and counters on from a position, and answers with the drawing then in hand.
///
/// The move, the end of a row, and the passage to the next code or to a stop are part of the position before them.
/// A fill whose position was in the foreground is inside.
pub fn advance(registers: &mut Registers, drawing: Drawing, is_foreground: bool) -> Drawing {
    let nothing = Drawing::Nothing { stopped: false };
    match drawing {
        Drawing::Nothing { .. } => drawing,
        Drawing::Line { done, .. } => advance_line(registers, done),
        Drawing::Codes { count, code, done } => advance_codes(registers, count, code, done),
        Drawing::Block { column, row } => match advance_block(registers, column, row) {
            Some((column, row)) => Drawing::Block { column, row },
            None => nothing,
        },
        Drawing::Fill { column, row, .. } => match advance_block(registers, column, row) {
            Some((column, row)) => Drawing::Fill {
                column,
                row,
                // Each row starts outside.
                inside: is_foreground && column > 0,
            },
            None => nothing,
        },
    }
}

/// No step follows a line's last position.
fn advance_line(registers: &mut Registers, done: u16) -> Drawing {
    if done >= registers.dimension_1 {
        return Drawing::Nothing { stopped: false };
    }
    let (direction, term) = line_step(registers);
    step(registers, direction);
    // E is reduced as in a write.
    registers.e = circle::TERMS.reduce(i64::from(registers.e) + i64::from(term)) as i32;
    Drawing::Line {
        done: done + 1,
        rose: registers.fields().draws_boundary() && direction.1 < 0,
    }
}

/// A line's next step and its term: E below 0 steps the major axis and adds K1, otherwise both axes and K2.
pub fn line_step(registers: &Registers) -> ((i64, i64), i32) {
    let operations = registers.fields();
    let (x, y) = (operations.x_sign(), operations.y_sign());
    if registers.e >= 0 {
        ((x, y), registers.k2)
    } else if operations.is_y_major() {
        ((0, y), registers.k1)
    } else {
        ((x, 0), registers.k1)
    }
}

/// Each code has n + 1 positions and n moves; no pointer moves between two codes.
fn advance_codes(registers: &mut Registers, count: u8, code: u16, done: u16) -> Drawing {
    match codes::at(registers.steps, count, code) {
        Some(current) if done < current.steps => {
            step(registers, current.direction);
            Drawing::Codes {
                count,
                code,
                done: done + 1,
            }
        }
        _ => passage(registers, count, code.saturating_add(1)),
    }
}

/// The passage to a code of the starting write: 00 stops and is flagged, and after the last code there is nothing.
pub fn passage(registers: &Registers, count: u8, code: u16) -> Drawing {
    match codes::byte(registers.steps, count, code) {
        None => Drawing::Nothing { stopped: false },
        Some(codes::STOP) => Drawing::Nothing { stopped: true },
        Some(_) => Drawing::Codes {
            count,
            code,
            done: 0,
        },
    }
}

/// At each step write forms move the destination so, and source X by +1; read forms the reverse.
///
/// docs/DIFFERENCES.md, D3: the pattern moves as the source does.
fn step(registers: &mut Registers, direction: (i64, i64)) {
    if registers.fields().is_read_form() {
        move_source(registers, direction);
        move_pattern(registers, direction);
        move_destination(registers, (1, 0));
    } else {
        move_source(registers, (1, 0));
        move_pattern(registers, (1, 0));
        move_destination(registers, direction);
    }
}

/// Rows with the octant's signs; at each row's end X returns and Y steps, after the last too: the next column and row, if any.
///
/// docs/DIFFERENCES.md, D4: inverting, the destination's Y goes the other way.
fn advance_block(registers: &mut Registers, column: u16, row: u16) -> Option<(u16, u16)> {
    let operations = registers.fields();
    let (x, y) = (operations.x_sign(), operations.y_sign());
    if column < registers.dimension_1 {
        move_source(registers, (x, 0));
        move_pattern(registers, (x, 0));
        move_destination(registers, (x, 0));
        return Some((column + 1, row));
    }
    let back = -x * i64::from(registers.dimension_1);
    let is_inverting = operations.function == INVERTING_PXBLT;
    move_source(registers, (back, y));
    move_pattern(registers, (back, y));
    move_destination(registers, (back, if is_inverting { -y } else { y }));
    (row < registers.dimension_2).then_some((0, row + 1))
}

/// Source pointers past an edge come in at the other; unused ones stay.
fn move_source(registers: &mut Registers, (x, y): (i64, i64)) {
    let operations = registers.fields();
    if operations.uses_source() {
        let map = *registers.map(operations.source);
        registers.source_x = moved(circle::side(map.width), registers.source_x, x) as u16;
        registers.source_y = moved(circle::side(map.height), registers.source_y, y) as u16;
    }
}

/// Pattern pointers past an edge come in at the other; unused ones stay.
fn move_pattern(registers: &mut Registers, (x, y): (i64, i64)) {
    let operations = registers.fields();
    if operations.uses_pattern() {
        let map = *registers.map(operations.pattern);
        registers.pattern_x = moved(circle::side(map.width), registers.pattern_x, x) as u16;
        registers.pattern_y = moved(circle::side(map.height), registers.pattern_y, y) as u16;
    }
}

/// Destination pointers step signed, from 6,143 to -2,048 and back.
fn move_destination(registers: &mut Registers, (x, y): (i64, i64)) {
    registers.destination_x = moved(circle::DESTINATION, registers.destination_x, x) as i16;
    registers.destination_y = moved(circle::DESTINATION, registers.destination_y, y) as i16;
}

fn moved(circle: Circle, pointer: impl Into<i64>, distance: i64) -> i64 {
    circle.reduce(pointer.into() + distance)
}
