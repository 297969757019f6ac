//! What drawings met of area boundaries and fills.

use crate::report;
use model::codes::{self, Code};
use model::fates::{fate, Fate};
use model::operations::{Kind, Operations};
use model::{Coprocessor, Drawing};
use std::fmt;

const FILLS: [&str; 5] = [
    "downwards",
    "upwards",
    "in place",
    "masked",
    "with a pattern that wraps",
];

/// What was met.
#[derive(Default)]
pub struct Areas {
    /// Area boundaries, by the octant of each line and by the direction of each code.
    octants: [u64; 8],
    directions: [u64; 8],
    kept_back: u64,
    /// Crossings left of the map that were drawn in its column 0.
    in_column_0: u64,
    fills: [u64; FILLS.len()],
}

impl Areas {
    /// Counts a drawing just begun.
    pub fn note_start(&mut self, state: &Coprocessor) {
        let fields = state.registers.fields();
        match state.drawing {
            Drawing::Line { .. } if fields.draws_boundary() => {
                self.octants[fields.octant as usize] += 1;
            }
            Drawing::Codes { count, .. } if fields.draws_boundary() => {
                let codes = codes::of_write(state.registers.steps, count);
                let run = codes.iter().take_while(|byte| **byte != codes::STOP);
                for byte in run.filter(|byte| Code::of(**byte).draws) {
                    self.directions[usize::from(byte >> 5)] += 1;
                }
            }
            _ if fields.kind() == Some(Kind::Fill) => self.note_fill(state, &fields),
            _ => {}
        }
    }

    fn note_fill(&mut self, state: &Coprocessor, fields: &Operations) {
        let registers = &state.registers;
        let last = registers.pattern_x + registers.dimension_1;
        let met = [
            fields.y_sign() > 0,
            fields.y_sign() < 0,
            fields.pattern == fields.destination,
            fields.mask != 0,
            last > registers.map(fields.pattern).width,
        ];
        for (times, is_met) in self.fills.iter_mut().zip(met) {
            *times += u64::from(is_met);
        }
    }

    /// Counts the position that comes next.
    pub fn note_position(&mut self, state: &Coprocessor, memory: &[u8]) {
        let registers = &state.registers;
        if registers.fields().draws_boundary() {
            let fate = fate(registers, &state.drawing, memory);
            let is_left = registers.destination_x < 0;
            self.kept_back += u64::from(fate == Fate::Nulled);
            self.in_column_0 += u64::from(fate == Fate::Written && is_left);
        }
    }

    /// What was never met.
    pub fn never_met(&self) -> Option<String> {
        let boundaries = [&self.octants[..], &self.directions].concat();
        let numbers = [self.kept_back, self.in_column_0];
        let is_any_0 = |times: &[u64]| times.contains(&0);
        if is_any_0(&boundaries) || is_any_0(&numbers) {
            return Some("an area boundary was never met".to_string());
        }
        let never = FILLS.iter().zip(self.fills).find(|(_, times)| *times == 0);
        never.map(|(name, _)| format!("no fill {name} was met"))
    }
}

impl fmt::Display for Areas {
    fn fmt(&self, lines: &mut fmt::Formatter) -> fmt::Result {
        write!(
            lines,
            "\n  area boundaries: {} positions kept back, {} crossings left of the map drawn in column 0",
            self.kept_back, self.in_column_0
        )?;
        write!(
            lines,
            "\n    lines by octant: {:?}, codes by direction: {:?}",
            self.octants, self.directions
        )?;
        write!(lines, "{}", report::met("fills", &FILLS, &self.fills))
    }
}
