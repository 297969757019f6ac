//! Where the guide's rules draw an edge's passage from row to row, in closed form (003:2020-2026).
//!
//! With a the larger difference and b the smaller, a line with E = 2b - a, K1 = 2b, K2 = 2(b - a) has after i steps along its major
//! axis made j = floor((2bi + a) / 2a) along its minor one, so step j + 1 there is made by step i = ceil(a(2j + 1) / 2b).

use super::edges::Edge;

/// A passage between a row and the one below it, in the upper of the two.
#[derive(Clone, Copy, Debug, PartialEq, Eq)]
pub struct Crossing {
    pub column: i64,
    /// Whether the exact place is halfway between two, so that the tie E = 0 decides.
    pub is_tie: bool,
}

/// The edge's passage between the row and the next, if it has one.
pub fn crossing(edge: &Edge, row: i64) -> Option<Crossing> {
    if !edge.crosses(row) {
        return None;
    }
    let (right, down) = edge.differences();
    let (a, b) = (edge.larger(), edge.smaller());
    let rows = (row - edge.from.1).abs();
    let (steps, is_tie) = if edge.is_y_major() {
        // In every row one position, the first or last of which is left out.
        let twice = 2 * b * rows + a;
        (twice.div_euclid(2 * a), twice % (2 * a) == 0)
    } else if down > 0 {
        // The last position before the step into the next row.
        let twice = a * (2 * rows + 1);
        (ceiling(twice, 2 * b) - 1, twice % (2 * b) == 0)
    } else {
        // The first position after the step into this row.
        let twice = a * (2 * rows - 1);
        (ceiling(twice, 2 * b), twice % (2 * b) == 0)
    };
    Some(Crossing {
        column: edge.from.0 + right.signum() * steps,
        is_tie,
    })
}

/// The quotient of two positive numbers, rounded up.
fn ceiling(number: i64, divisor: i64) -> i64 {
    (number + divisor - 1).div_euclid(divisor)
}
