//! What a comparison of drawings met.

use super::areas::Areas;
use crate::between;
use crate::orders::Orders;
use crate::pair::Pair;
use crate::random_drawings::FUNCTIONS;
use model::operations::Kind;
use model::Coprocessor;
use std::fmt;

/// Loads into another coprocessor, and those of them in state 3.
#[derive(Default)]
pub struct Loads {
    all: u64,
    inside: u64,
}

impl Loads {
    /// Counts the load of a state.
    pub fn note(&mut self, pair: &Pair) {
        self.all += 1;
        self.inside += u64::from(pair.is_inside());
    }

    /// How many there were.
    pub fn all(&self) -> u64 {
        self.all
    }
}

/// What was met.
#[derive(Default)]
pub struct Counts {
    pub drawings: [u64; FUNCTIONS.len()],
    /// Lines and codes by their drawing mode.
    modes: [u64; 4],
    pub areas: Areas,
    orders: Orders,
    pub positions: u64,
    pub changed: u64,
    pub stopped_at_once: u64,
    pub carried: Loads,
    pub cut_everywhere: u64,
    pub cuts: Loads,
    pub between: between::Counts,
}

impl Counts {
    /// Counts a drawing just begun.
    pub fn note_start(&mut self, state: &Coprocessor) {
        let fields = state.registers.fields();
        let has_mode = matches!(fields.kind(), Some(Kind::Line | Kind::Codes));
        self.modes[fields.drawing_mode as usize] += u64::from(has_mode);
        self.areas.note_start(state);
        self.orders.note(state);
    }

    /// What was never met.
    pub fn never_met(&self) -> Option<String> {
        let never = self.between.never_met();
        never
            .or_else(|| self.areas.never_met())
            .or_else(|| self.orders.never_met())
    }
}

impl fmt::Display for Counts {
    fn fmt(&self, lines: &mut fmt::Formatter) -> fmt::Result {
        writeln!(
            lines,
            "drawings, by function 2, 3, 4, 5, 8, 9, 10: {:?}; {} positions, {} changed memory, {} had no position",
            self.drawings, self.positions, self.changed, self.stopped_at_once
        )?;
        write!(
            lines,
            "  lines and codes by drawing mode 00, 01, 10, 11: {:?}",
            self.modes
        )?;
        writeln!(lines, "{}{}", self.areas, self.orders)?;
        write!(
            lines,
            "  {} loads into another coprocessor at random; {} drawings cut at every position, with {} such loads; {} of all in state 3",
            self.carried.all,
            self.cut_everywhere,
            self.cuts.all,
            self.carried.inside + self.cuts.inside
        )?;
        write!(lines, "{}", self.between)
    }
}
