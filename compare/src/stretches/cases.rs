//! Random drawings at the borders between stretches and single positions, family by family.

use super::apart::{patterns, slides};
use super::barred::barred;
use super::blocks::{long, overlaps, plain, ragged, settle_phase};
use super::borders::{circle, edges, masks, wraps};
use super::plans::Plan;
use super::strokes::cases::{codes, lines};
use crate::random::Random;
use crate::writes::MOTOROLA;

/// What a drawing is made for.
#[derive(Clone, Copy, Debug, PartialEq, Eq)]
pub enum Family {
    /// Every first column and width, at every size and order.
    Ragged,
    Edges,
    /// Rows that come round the destination's circle, into the map.
    Circle,
    Masks,
    Wraps,
    Overlaps,
    /// Rows of many bytes.
    Long,
    /// Copies in another phase.
    Slides,
    Patterns,
    Lines,
    Codes,
    /// Without stretches, for one cause.
    Barred,
}

pub const FAMILIES: [&str; 12] = [
    "ragged ends",
    "map edges",
    "ends of the circle",
    "mask edges",
    "source wraps",
    "overlaps",
    "many bytes",
    "copies in another phase",
    "patterns",
    "lines",
    "codes",
    "no stretches",
];

/// The families in turn.
const TURNS: [Family; 14] = [
    Family::Ragged,
    Family::Edges,
    Family::Slides,
    Family::Patterns,
    Family::Lines,
    Family::Ragged,
    Family::Masks,
    Family::Slides,
    Family::Codes,
    Family::Ragged,
    Family::Wraps,
    Family::Patterns,
    Family::Overlaps,
    Family::Barred,
];

/// One in so many turns of the map's edges is one of the circle's ends, and of the overlaps one of many bytes.
const RARE: u64 = 12;

/// The first columns and the widths of ragged blocks, and the formats at which each is met.
pub const COLUMNS: u64 = 9;
pub const WIDTHS: u64 = 40;
pub const FORMATS: u64 = 8;

/// The ragged blocks, and the cases after which each was met.
pub const RAGGED: u64 = COLUMNS * WIDTHS * FORMATS;
pub const ALL_RAGGED: u64 = RAGGED.div_ceil(3) * TURNS.len() as u64;

/// The distances in bytes at which source and destination overlap, from this far behind to as far before.
pub const FARTHEST: i64 = 9;

/// The plan of a number, and its family.
pub fn plan(random: &mut Random, number: u64) -> (Family, Plan) {
    let (family, turn) = turn(number);
    let family = match family {
        Family::Edges if turn.is_multiple_of(RARE) => Family::Circle,
        Family::Overlaps if turn.is_multiple_of(RARE) => Family::Long,
        family => family,
    };
    let mut plan = plain(random);
    match family {
        Family::Ragged => ragged(random, &mut plan, turn),
        Family::Edges => edges(random, &mut plan),
        Family::Circle => circle(random, &mut plan),
        Family::Masks => masks(random, &mut plan),
        Family::Wraps => wraps(random, &mut plan),
        Family::Overlaps => overlaps(random, &mut plan, turn),
        Family::Long => long(random, &mut plan),
        Family::Slides => slides(random, &mut plan, turn),
        Family::Patterns => patterns(random, &mut plan, turn),
        Family::Lines => lines(random, &mut plan, turn),
        Family::Codes => codes(random, &mut plan, turn),
        Family::Barred => barred(random, &mut plan, turn),
    }
    if matches!(family, Family::Edges | Family::Masks | Family::Wraps) {
        add_others(random, &mut plan, family);
    }
    if matches!(
        family,
        Family::Edges | Family::Circle | Family::Masks | Family::Wraps
    ) {
        settle_phase(random, &mut plan);
    }
    if family != Family::Barred && !plan.takes_source && random.once_in(2) {
        // A source that is not taken may be of the other order.
        plan.source.order ^= MOTOROLA;
    }
    (family, plan)
}

/// The family of a number, and how many of that family came before it.
fn turn(number: u64) -> (Family, u64) {
    let turns = TURNS.len() as u64;
    let place = (number % turns) as usize;
    let family = TURNS[place];
    let among = |turns: &[Family]| turns.iter().filter(|one| **one == family).count() as u64;
    (
        family,
        number / turns * among(&TURNS) + among(&TURNS[..place]),
    )
}

/// Now and then adds what the other families are made for.
fn add_others(random: &mut Random, plan: &mut Plan, family: Family) {
    if family != Family::Edges && random.once_in(4) {
        edges(random, plan);
    }
    if family != Family::Masks && random.once_in(4) {
        masks(random, plan);
    }
    if family != Family::Wraps && random.once_in(4) {
        wraps(random, plan);
    }
}
