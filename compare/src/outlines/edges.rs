//! The edges of an outline.

pub use crate::writes::Point;

/// An edge from one point to another, with its direction.
#[derive(Clone, Copy, Debug)]
pub struct Edge {
    pub from: Point,
    pub to: Point,
}

impl Edge {
    /// What the edge goes to the right and down, either of which may be negative.
    pub fn differences(&self) -> (i64, i64) {
        (self.to.0 - self.from.0, self.to.1 - self.from.1)
    }

    /// The larger difference.
    pub fn larger(&self) -> i64 {
        let (x, y) = self.differences();
        x.abs().max(y.abs())
    }

    /// The smaller difference.
    pub fn smaller(&self) -> i64 {
        let (x, y) = self.differences();
        x.abs().min(y.abs())
    }

    /// Whether Y is the major axis; on ties it is X.
    pub fn is_y_major(&self) -> bool {
        let (x, y) = self.differences();
        y.abs() > x.abs()
    }

    /// Whether the edge is level, upright or diagonal.
    pub fn is_straight(&self) -> bool {
        self.smaller() == 0 || self.smaller() == self.larger()
    }

    /// Whether the row lies between the ends, the upper end being inside and the lower not.
    pub fn crosses(&self, row: i64) -> bool {
        let (top, bottom) = (self.from.1.min(self.to.1), self.from.1.max(self.to.1));
        (top..bottom).contains(&row)
    }
}
