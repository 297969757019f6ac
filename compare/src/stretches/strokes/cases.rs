//! Random lines and codes.

use crate::random::Random;
use crate::stretches::blocks::number;
use crate::stretches::borders::end_of_circle;
use crate::stretches::plans::{Pattern, Plan, Walk};
use crate::writes;
use model::codes::STOP;
use model::operations::{CODES_WRITE, LINE_WRITE, MASK_BOUNDARY};

/// One in so many lines is long, and one in so many drawings begins at an end of the destination's circle.
const RARE: u32 = 12;

/// A line of every octant in turn, inside its map or over the edges of map and mask.
pub fn lines(random: &mut Random, plan: &mut Plan, turn: u64) {
    become_stroke(plan, LINE_WRITE);
    let octant = turn % 8;
    (plan.is_back, plan.is_up) = (octant & 0b100 != 0, octant & 0b010 != 0);
    plan.is_steep = octant & 0b001 != 0;
    let length = match random.once_in(RARE) {
        true => number(random, 49, 200),
        false => number(random, 1, 40),
    };
    let breadth = number(random, 1, length);
    plan.size = match plan.is_steep {
        true => (breadth, length),
        false => (length, breadth),
    };
    plan.walk = Walk::Line(terms(random, length - 1, breadth - 1));
    place(random, plan, turn / 8);
}

/// E, K1 and K2 of a line by 003, or any, of which E may come round.
fn terms(random: &mut Random, length: i64, breadth: i64) -> [u32; 3] {
    match random.below(4) {
        0 => {
            let reach = random.pick(&[8, 40, 8_191]) as i32;
            [(); 3].map(|()| random.between(-reach, reach) as u32)
        }
        _ => {
            let [e, k1, k2, _] = writes::line((0, 0), (length, breadth));
            [e, k1, k2].map(|(_, _, term)| term)
        }
    }
}

/// Codes of which the first has every direction in turn, inside the map or over the edges of map and mask.
pub fn codes(random: &mut Random, plan: &mut Plan, turn: u64) {
    become_stroke(plan, CODES_WRITE);
    plan.size = (number(random, 1, 30), number(random, 1, 20));
    let count = random.pick(&[1, 2, 4]) as u8;
    let first = (turn % 8) as u8;
    let code = |place: u8| {
        let direction = match place {
            0 => first,
            _ => random.below(8) as u8,
        };
        let draws = place == 0 || !random.once_in(5);
        let is_stop = place > 0 && random.once_in(24);
        match is_stop {
            true => STOP,
            false => direction << 5 | u8::from(draws) << 4 | random.below(16) as u8,
        }
    };
    plan.walk = Walk::Codes((0..count).map(code).collect());
    place(random, plan, turn / 8);
}

/// Makes a plan one of a write form without source and pattern, in drawing mode 00.
fn become_stroke(plan: &mut Plan, function: u32) {
    plan.function = function;
    plan.pattern = Pattern::Foreground;
    (plan.takes_source, plan.background_takes_source) = (false, false);
    plan.drawing_mode = 0;
}

/// Lays the map around the stroke, or so that the stroke begins anywhere in it or near it, and every second time a mask over its beginning.
fn place(random: &mut Random, plan: &mut Plan, turn: u64) {
    if turn.is_multiple_of(4) {
        plan.corner = (number(random, 0, 20), number(random, 0, 20));
        plan.map = (
            plan.corner.0 + plan.size.0 + number(random, 0, 20),
            plan.corner.1 + plan.size.1 + number(random, 0, 20),
        );
    } else {
        plan.map = (number(random, 1, 50), number(random, 1, 40));
        // In the map, or before the edge from which the octant leads in.
        let mut any = |length: i64, is_at_end: bool| match (random.below(3), is_at_end) {
            (0, true) => length - 1 + number(random, 0, 20),
            (0, false) => -number(random, 0, 20),
            _ => number(random, 0, length - 1),
        };
        let at = (any(plan.map.0, plan.is_back), any(plan.map.1, plan.is_up));
        plan.begin_at(at);
    }
    if turn % 2 == 1 {
        mask_beginning(random, plan);
    }
    if random.once_in(RARE) {
        let end = end_of_circle(random) + number(random, -20, 20);
        match random.once_in(2) {
            true => plan.corner.0 = end,
            false => plan.corner.1 = end,
        }
    }
}

/// A mask boundary around the first position, or beside it.
fn mask_beginning(random: &mut Random, plan: &mut Plan) {
    plan.mask_mode = MASK_BOUNDARY;
    let first = random.pick(&[0, 0, 0, 3]);
    let mut side = |at: i64| {
        let before = number(random, -i64::from(first), 12);
        ((at - before).max(0), before.max(0) + number(random, 1, 12))
    };
    let (x, y) = plan.to();
    let ((left, width), (top, height)) = (side(x), side(y));
    plan.mask = ((left, top), (width, height));
}
