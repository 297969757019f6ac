//! The drawing in hand and its counters (01, What the board draws; 01, The functions).

use crate::codes::{self, Code};
use crate::registers::Registers;

/// The drawing in hand.
#[derive(Clone, Copy, Debug, PartialEq, Eq)]
pub enum Drawing {
    /// Nothing; `stopped` is the stop flag.
    Nothing {
        /// Whether the last drawing ended by code 00.
        stopped: bool,
    },
    /// A line.
    Line {
        /// Positions done in this line.
        done: u16,
        /// The look-back bit: whether the last step of an area boundary rose by a row.
        rose: bool,
    },
    /// A run of codes.
    Codes {
        /// Codes in the starting write.
        count: u8,
        /// Codes done.
        code: u16,
        /// Positions done in this code.
        done: u16,
    },
    /// A block.
    Block {
        /// Positions done in this row.
        column: u16,
        /// Rows done.
        row: u16,
    },
    /// An area fill.
    Fill {
        /// Positions done in this row.
        column: u16,
        /// Rows done.
        row: u16,
        /// Whether the position before this one in its row was inside.
        inside: bool,
    },
}

impl Drawing {
    /// Whether a drawing is unfinished.
    pub fn is_unfinished(&self) -> bool {
        !matches!(self, Drawing::Nothing { .. })
    }

    /// The positions of the whole drawing.
    pub fn total(&self, registers: &Registers) -> u64 {
        match *self {
            Drawing::Nothing { .. } => 0,
            Drawing::Line { .. } => size(registers.dimension_1),
            Drawing::Codes { count, .. } => codes::of_write(registers.steps, count)
                .into_iter()
                .take_while(|byte| *byte != codes::STOP)
                .map(|byte| Code::of(byte).positions())
                .sum(),
            Drawing::Block { .. } | Drawing::Fill { .. } => {
                size(registers.dimension_1) * size(registers.dimension_2)
            }
        }
    }

    /// The positions done so far.
    pub fn done(&self, registers: &Registers) -> u64 {
        match *self {
            Drawing::Nothing { .. } => 0,
            Drawing::Line { done, .. } => u64::from(done),
            Drawing::Codes { count, code, done } => {
                let earlier: u64 = codes::of_write(registers.steps, count)
                    .into_iter()
                    .take(usize::from(code))
                    .map(|byte| Code::of(byte).positions())
                    .sum();
                earlier + u64::from(done)
            }
            Drawing::Block { column, row } | Drawing::Fill { column, row, .. } => {
                u64::from(row) * size(registers.dimension_1) + u64::from(column)
            }
        }
    }

    /// 01, State image: whether a position remains at the counters.
    pub fn has_position(&self, registers: &Registers) -> bool {
        match *self {
            Drawing::Nothing { .. } => false,
            Drawing::Line { done, .. } => done <= registers.dimension_1,
            Drawing::Codes { count, code, done } => {
                codes::at(registers.steps, count, code).is_some_and(|current| done <= current.steps)
            }
            Drawing::Block { column, row } | Drawing::Fill { column, row, .. } => {
                column <= registers.dimension_1 && row <= registers.dimension_2
            }
        }
    }
}

/// Dimensions are one less than the size.
fn size(dimension: u16) -> u64 {
    u64::from(dimension) + 1
}
