//! What every position changes: pointers, E and a counter.

use super::points::{Point, Step};
use super::setup::{Pattern, Setup};
use super::stretches::Stretch;
use model::registers::Registers;

/// The pointers, E, and the positions done in this line, code or row.
#[derive(Clone, Copy)]
pub(super) struct Pen {
    pub(super) source: Point,
    pub(super) pattern: Point,
    pub(super) destination: Point,
    pub(super) e: i32,
    pub(super) done: u32,
}

impl Pen {
    /// The pen of the registers, after so many positions.
    pub(super) fn of(registers: &Registers, done: u32) -> Pen {
        Pen {
            source: Point::in_map(registers.source_x, registers.source_y),
            pattern: Point::in_map(registers.pattern_x, registers.pattern_y),
            destination: Point::of_destination(registers.destination_x, registers.destination_y),
            e: registers.e,
            done,
        }
    }

    /// Steps to the next position of the stretch.
    #[inline(always)]
    pub(super) fn stepped(self, setup: &Setup, stretch: &Stretch) -> Pen {
        let step = &stretch.steps[usize::from(self.e >= 0)];
        Pen {
            // E is reduced as in a write.
            e: ((self.e + step.term + 8_192) & 16_383) - 8_192,
            done: self.done + 1,
            ..self.moved(setup, step)
        }
    }

    /// Moves the destination and the used pointers.
    #[inline(always)]
    pub(super) fn moved(self, setup: &Setup, step: &Step) -> Pen {
        Pen {
            source: match &setup.source {
                Some(map) => self.source.moved(map, step.map_x, step.map_y),
                None => self.source,
            },
            pattern: match &setup.pattern {
                Pattern::Map(map) => self.pattern.moved(map, step.map_x, step.map_y),
                _ => self.pattern,
            },
            destination: self
                .destination
                .moved_destination(step.destination_x, step.destination_y),
            ..self
        }
    }

    /// Puts the pointers and E into the registers.
    pub(super) fn put_back(&self, registers: &mut Registers) {
        registers.source_x = self.source.x as u16;
        registers.source_y = self.source.y as u16;
        registers.pattern_x = self.pattern.x as u16;
        registers.pattern_y = self.pattern.y as u16;
        let (x, y) = self.destination.destination_registers();
        registers.destination_x = x;
        registers.destination_y = y;
        registers.e = self.e;
    }
}
