//! Random blocks that are stretches only where what they read lies apart: copies in another phase, and pattern maps.

use super::blocks::{long, number, settle_rows};
use super::borders::{edges, masks, wraps};
use super::plans::{Pattern, Plan};
use super::reads::{Apart, Read};
use crate::random::Random;
use crate::writes::{MIX_DESTINATION, MIX_SOURCE, MIX_XOR};

/// One in so many of these blocks has none of three borders, and one in so many is of many bytes.
const BORDERS: u64 = 4;
const RARE: u64 = 12;

/// The bytes between what is read and what is drawn are at most so many, or as many are shared.
const NEAREST: i64 = 3;

/// A copy in another phase.
pub fn slides(random: &mut Random, plan: &mut Plan, turn: u64) {
    plan.takes_source = true;
    plan.code = random.below(3);
    if turn.is_multiple_of(RARE) {
        long(random, plan);
    }
    add_border(random, plan, turn);
    settle_rows(random, plan);
    let is_own = is_near(turn) && random.once_in(3);
    if is_own {
        take_own_pixels(random, plan);
    }
    let further = number(random, 1, plan.in_byte() - 1);
    plan.bring_in_phase(further);
    if is_near(turn) && !is_own {
        bring_near(random, plan);
    }
}

/// Makes the destination its own source, some pixels on in the same row.
fn take_own_pixels(random: &mut Random, plan: &mut Plan) {
    let (width, _) = plan.map;
    let (x, y) = plan.to();
    let moved = x + number(random, -plan.size.0 - 9, plan.size.0 + 9);
    plan.source.size = plan.map;
    plan.source.from = (moved.clamp(0, width - 1), y);
    plan.source.apart = Apart::Same;
}

/// A block that a pattern map picks the colours of.
pub fn patterns(random: &mut Random, plan: &mut Plan, turn: u64) {
    plan.code = 3;
    if turn.is_multiple_of(RARE) {
        long(random, plan);
    }
    become_patterned(random, plan);
    add_border(random, plan, turn);
    if is_near(turn) {
        bring_near(random, plan);
    }
}

/// Gives a block a pattern map, 8 bits, and logical mixes, of which one may leave the destination.
pub fn become_patterned(random: &mut Random, plan: &mut Plan) {
    plan.pattern = Pattern::Map;
    plan.code = 3;
    (plan.takes_source, plan.background_takes_source) = (false, false);
    [plan.mix, plan.background_mix] = [(); 2].map(|()| {
        let any = random.below(16);
        random.pick(&[MIX_SOURCE, MIX_SOURCE, MIX_XOR, MIX_DESTINATION, any, any])
    });
    plan.size.0 = plan.size.0.max(4);
    let (width, height) = plan.size;
    plan.map = (
        plan.corner.0 + width + number(random, 0, 9),
        plan.corner.1 + height + number(random, 0, 2),
    );
    plan.tile = Read::around(random, plan.size, plan.is_back, plan.is_up);
}

/// The map's edge, the mask's, or wraps, in turn.
fn add_border(random: &mut Random, plan: &mut Plan, turn: u64) {
    match turn % BORDERS {
        1 => edges(random, plan),
        2 => masks(random, plan),
        3 => wraps(random, plan),
        _ => {}
    }
}

/// Whether what is read is laid near what is drawn, which is where no border is added.
fn is_near(turn: u64) -> bool {
    turn.is_multiple_of(BORDERS)
}

/// Lays what is read near what is drawn, so that few bytes are between them or shared.
fn bring_near(random: &mut Random, plan: &mut Plan) {
    let between = number(random, -NEAREST, NEAREST);
    plan.bring_near(between, random.once_in(2));
}
