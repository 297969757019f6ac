//! The area boundary, drawing mode 11 of lines and codes (003:2020-2033; 02, 102).

use crate::codes;
use crate::drawing::Drawing;
use crate::moves;
use crate::registers::Registers;

/// Whether the area boundary draws the position: each passage from one row to the next once, in the upper of the two.
///
/// Downwards it draws the last position of each horizontal run but the last run, upwards the first of each run but the first.
pub fn draws(registers: &Registers, drawing: &Drawing) -> bool {
    match *drawing {
        Drawing::Line { rose, .. } if registers.fields().y_sign() < 0 => rose,
        Drawing::Line { done, .. } => {
            let (direction, _) = moves::line_step(registers);
            done < registers.dimension_1 && direction.1 != 0
        }
        Drawing::Codes { count, code, done } => codes::at(registers.steps, count, code)
            .is_some_and(|code| match code.direction.1 {
                -1 => done > 0,
                1 => done < code.steps,
                _ => false,
            }),
        Drawing::Block { .. } | Drawing::Fill { .. } | Drawing::Nothing { .. } => false,
    }
}

/// The place of the destination that the position draws: left of the map an area boundary draws in column 0, so that filling starts there.
pub fn place(registers: &Registers) -> (i64, i64) {
    let x = i64::from(registers.destination_x);
    let y = i64::from(registers.destination_y);
    if registers.fields().draws_boundary() {
        (x.max(0), y)
    } else {
        (x, y)
    }
}
