//! Random blocks: plain ones, with every ragged end, over their own source, and of many bytes.

use super::cases::{COLUMNS, FARTHEST, FORMATS, WIDTHS};
use super::plans::{Pattern, Plan, Walk};
use super::reads::{Apart, Read};
use crate::random::Random;
use crate::writes::{MIX_SOURCE, MIX_XOR, MOTOROLA};
use model::operations::{INVERTING_PXBLT, PXBLT};

/// A block inside its destination, from the inside of its source.
pub fn plain(random: &mut Random) -> Plan {
    let code = random.below(4);
    let order = random.pick(&[0, MOTOROLA]);
    let (any_mix, any_planes) = (random.below(16), random.word());
    let size = (number(random, 1, 40), number(random, 1, 4));
    let corner = (number(random, 0, 9), number(random, 0, 2));
    let mut side = |first: i64, length: i64| first + length + number(random, 0, 9);
    let map = (side(corner.0, size.0), side(corner.1, size.1));
    let (is_back, is_up) = (random.once_in(2), random.once_in(2));
    let source = Read::around(random, size, is_back, is_up);
    let mut plan = Plan {
        function: random.pick(&[PXBLT, PXBLT, PXBLT, INVERTING_PXBLT]),
        is_back,
        is_up,
        is_steep: random.once_in(2),
        walk: Walk::Rows,
        code,
        order,
        size,
        corner,
        map,
        source: Read { order, ..source },
        tile: Read::around(random, size, is_back, is_up),
        takes_source: !random.once_in(3),
        background_takes_source: random.once_in(2),
        mix: random.pick(&[MIX_SOURCE, MIX_SOURCE, MIX_XOR, any_mix, any_mix]),
        background_mix: random.below(0x16),
        planes: random.pick(&[u32::MAX, (1 << (1 << code)) - 1, any_planes]),
        condition: 4,
        drawing_mode: random.below(3),
        pattern: Pattern::Foreground,
        mask_mode: 0,
        mask: ((0, 0), (1, 1)),
    };
    settle_phase(random, &mut plan);
    plan
}

/// Most often makes rows of whole bytes, so that all have one phase, and source and destination of the same phase.
pub fn settle_phase(random: &mut Random, plan: &mut Plan) {
    settle_rows(random, plan);
    if !random.once_in(5) {
        plan.bring_in_phase(0);
    }
}

/// Most often makes rows of whole bytes.
pub fn settle_rows(random: &mut Random, plan: &mut Plan) {
    let in_byte = plan.in_byte() as u64;
    if !random.once_in(4) {
        for side in [&mut plan.map.0, &mut plan.source.size.0] {
            *side = (*side as u64).next_multiple_of(in_byte) as i64;
        }
    }
}

/// Every first column and width at every size and order, by a number that goes round.
pub fn ragged(random: &mut Random, plan: &mut Plan, turn: u64) {
    let format = (turn % FORMATS) as u32;
    let turn = turn / FORMATS;
    plan.code = format % 4;
    plan.order = if format < 4 { 0 } else { MOTOROLA };
    plan.source.order = plan.order;
    plan.corner.0 = (turn % COLUMNS) as i64;
    plan.size.0 = (turn / COLUMNS % WIDTHS) as i64 + 1;
    plan.size.1 = number(random, 1, 3);
    plan.map.0 = plan.corner.0 + plan.size.0 + number(random, 0, 9);
    plan.source.size.0 = 2 * plan.size.0 + 18;
    if plan.is_back {
        plan.source.from.0 = plan.size.0 + number(random, 0, 9);
    }
    settle_phase(random, plan);
}

/// Source and destination so many bytes apart in one memory, by the bases of two maps or by columns of one map; both ways in turn, and
/// every second pair of times copied.
pub fn overlaps(random: &mut Random, plan: &mut Plan, round: u64) {
    let distances = 2 * FARTHEST as u64 + 1;
    let apart = (round % distances) as i64 - FARTHEST;
    let turn = round / distances;
    plan.is_back = turn % 2 == 1;
    if turn / 2 % 2 == 1 {
        (plan.mix, plan.planes) = (MIX_SOURCE, u32::MAX);
    }
    let in_byte = plan.in_byte();
    plan.takes_source = true;
    let bytes = apart.abs() + number(random, 1, 7);
    plan.size = (
        in_byte * bytes + number(random, 1, 2 * in_byte),
        number(random, 1, 2),
    );
    let columns = in_byte * apart;
    plan.corner = (
        number(random, 0, 9) + (-columns).max(0),
        number(random, 0, 1),
    );
    plan.map = (
        plan.corner.0 + plan.size.0 + columns.max(0) + number(random, 0, 9),
        plan.corner.1 + plan.size.1,
    );
    plan.source.size = plan.map;
    plan.source.from = plan.to();
    plan.source.apart = Apart::Bytes(apart);
    if random.once_in(2) {
        plan.source.from.0 += columns;
        plan.source.apart = Apart::Same;
    }
}

/// One row of many bytes, often not far from its own source.
pub fn long(random: &mut Random, plan: &mut Plan) {
    plan.size = (number(random, 10, 20) * 8 * plan.in_byte(), 1);
    plan.size.0 += number(random, 0, 8);
    plan.corner = (number(random, 0, 8), 0);
    plan.map = (plan.corner.0 + plan.size.0 + number(random, 0, 8), 1);
    plan.source.size = plan.map;
    plan.source.from = plan.to();
    if random.once_in(2) {
        plan.source.apart = Apart::Bytes(number(random, -90, 90));
    }
}

/// A number from one to another, both included.
pub fn number(random: &mut Random, first: i64, last: i64) -> i64 {
    random.between(first as i32, last as i32).into()
}
