//! Plain even-odd geometry in whole numbers, which knows nothing of runs, codes or terms.
//!
//! A pixel is the point of its column and row. An edge crosses its row if the row lies from the edge's upper end down to before its
//! lower one, at the exact X that the edge has there, and the pixel is inside if an odd number of edges do so at its column or left of it.

use super::edges::{Edge, Point};

/// Whether the pixel is inside the outline of these edges.
pub fn is_inside(edges: &[Edge], pixel: Point) -> bool {
    let crossed = edges.iter().filter(|edge| is_right_of(edge, pixel));
    crossed.count() % 2 == 1
}

/// Whether the edge crosses the pixel's row, at its column or left of it.
fn is_right_of(edge: &Edge, (x, y): Point) -> bool {
    let (right, down) = edge.differences();
    // The edge's X in this row is from.0 + right * (y - from.1) / down.
    let distance = (x - edge.from.0) * down - right * (y - edge.from.1);
    edge.crosses(y) && distance * down.signum() >= 0
}

/// Whether the pixel's row is crossed and the pixel lies within half a pixel of the edge, along the edge's shorter difference.
///
/// There a line's rounding may put the pixel on the edge's other side; a level, upright or diagonal edge is not rounded.
pub fn is_near(edge: &Edge, (x, y): Point) -> bool {
    let (right, down) = edge.differences();
    let (left, last) = (edge.from.0.min(edge.to.0), edge.from.0.max(edge.to.0));
    let is_beside = edge.crosses(y) && (edge.is_y_major() || (left..=last).contains(&x));
    let distance = (x - edge.from.0) * down - right * (y - edge.from.1);
    !edge.is_straight() && is_beside && 2 * distance.abs() <= edge.larger()
}
