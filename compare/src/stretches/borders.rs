//! What puts a border into a drawing: edges of the map and of the mask, ends of the circle, and wraps of the source or pattern.

use super::blocks::number;
use super::plans::{Pattern, Plan};
use crate::random::Random;
use model::operations::MASK_BOUNDARY;

/// A map that ends within the block's rows, or beside them.
pub fn edges(random: &mut Random, plan: &mut Plan) {
    let (width, height) = plan.size;
    plan.map = (number(random, 1, width + 8), number(random, 1, height + 1));
    plan.corner = match random.below(4) {
        0 => (number(random, 1 - width, 0), 0),
        1 => (plan.map.0 - number(random, 1, width), 0),
        _ => (
            number(random, -width - 10, plan.map.0 + 10),
            number(random, -height - 1, plan.map.1 + 1),
        ),
    };
}

/// Rows that begin near one end of the circle and pass it; long ones come into the map at its far side.
pub fn circle(random: &mut Random, plan: &mut Plan) {
    (plan.size.1, plan.map.1, plan.corner.1) = (1, 1, 0);
    let first = match random.once_in(2) {
        true if plan.is_back => {
            // From left of column 0 down to -2,048, and from 6,143 to the last column.
            (plan.code, plan.map.0) = (random.below(2), 4_096);
            plan.size.0 = 4_096;
            number(random, -60, -2)
        }
        true => {
            plan.size.0 = number(random, 2_064, 2_100);
            number(random, 6_136, 6_143)
        }
        false => {
            plan.size.0 = number(random, 4, 40);
            end_of_circle(random) + number(random, -30, 30)
        }
    };
    // The first position has this column.
    plan.corner.0 = match plan.is_back {
        true => first - plan.size.0 + 1,
        false => first,
    };
    if random.once_in(4) {
        (plan.size.1, plan.corner.1) = (2, end_of_circle(random));
    }
}

/// One of the ends of the destination's circle.
pub fn end_of_circle(random: &mut Random) -> i64 {
    match random.once_in(2) {
        true => -2_048,
        false => 6_143,
    }
}

/// A mask boundary that cuts the block's rows at the left, at the right, at both ends, or wholly, or only some rows.
pub fn masks(random: &mut Random, plan: &mut Plan) {
    plan.mask_mode = MASK_BOUNDARY;
    let (width, height) = plan.size;
    let (left, top) = plan.corner;
    let (first, length) = match random.below(5) {
        0 => (left + number(random, 1, width), 4_096),
        1 => (0, left + number(random, 0, width)),
        2 => (
            left + number(random, 1, (width + 1) / 2),
            number(random, 1, (width + 1) / 2),
        ),
        3 => (left + width + number(random, 0, 9), width),
        _ => (left - number(random, 0, 4), width + number(random, 0, 9)),
    };
    let (upper, rows) = match random.once_in(2) {
        true => (
            top + number(random, 0, height - 1),
            number(random, 1, height),
        ),
        false => (0, height + 9),
    };
    plan.mask = ((first.max(0), upper.max(0)), (length.max(1), rows.max(1)));
}

/// A source or pattern map whose edges are met within a row, several times where it is narrow.
pub fn wraps(random: &mut Random, plan: &mut Plan) {
    plan.takes_source |= plan.pattern != Pattern::Map;
    let size = plan.size;
    let (read, in_byte) = plan.read();
    let width = match random.below(4) {
        0 => number(random, 1, 9),
        1 => in_byte * number(random, 1, 3),
        _ => number(random, 1, size.0 + 9),
    };
    read.size = (width, number(random, 1, size.1 + 1));
    let column = match random.below(3) {
        0 => number(random, 0, 9),
        1 => read.size.0 - 1 - number(random, 0, 9),
        _ => number(random, 0, 60),
    };
    read.from = (column.max(0), number(random, 0, read.size.1 - 1));
}
