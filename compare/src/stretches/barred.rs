//! Random drawings that have no stretches, for one cause alone.

use super::apart::become_patterned;
use super::bars::{self, Bar};
use super::blocks::number;
use super::borders::masks;
use super::plans::{Pattern, Plan, Walk};
use super::strokes::cases::{codes, lines};
use crate::random::Random;
use crate::writes::MOTOROLA;
use model::operations::{AREA_BOUNDARY, AREA_FILL, CODES_READ, LINE_READ, MASK_ENABLED};

/// How many drawings in turn have every cause.
const CAUSES: usize = bars::OF_BLOCKS.len() + bars::OF_PATTERNS.len() + bars::OF_STROKES.len();

/// A drawing without stretches: each block, block with a pattern map, and line or codes, for each cause in turn.
pub fn barred(random: &mut Random, plan: &mut Plan, turn: u64) {
    let place = (turn % CAUSES as u64) as usize;
    let (blocks, patterns) = (bars::OF_BLOCKS.len(), bars::OF_PATTERNS.len());
    plan.size.0 = plan.size.0.max(4);
    if place < blocks {
        bar(random, plan, bars::OF_BLOCKS[place]);
    } else if place < blocks + patterns {
        become_patterned(random, plan);
        bar(random, plan, bars::OF_PATTERNS[place - blocks]);
    } else {
        // Of any octant or direction, in a map around it.
        let turn = random.below(8).into();
        match random.once_in(2) {
            true => lines(random, plan, turn),
            false => codes(random, plan, turn),
        }
        bar(random, plan, bars::OF_STROKES[place - blocks - patterns]);
    }
}

/// Puts a bar into a drawing that has none.
fn bar(random: &mut Random, plan: &mut Plan, bar: Bar) {
    match bar {
        Bar::Fill => {
            plan.function = AREA_FILL;
            plan.pattern = Pattern::Map;
            plan.is_back = false;
        }
        Bar::ReadForm => {
            plan.function = match plan.walk {
                Walk::Codes(_) => CODES_READ,
                Walk::Line(_) | Walk::Rows => LINE_READ,
            }
        }
        Bar::NarrowRow => plan.size.0 = number(random, 1, 3),
        Bar::Pattern => {
            plan.pattern = match plan.walk == Walk::Rows || random.once_in(2) {
                true => Pattern::FromSource,
                false => Pattern::Map,
            }
        }
        Bar::Bits => plan.code = random.below(3),
        Bar::Source => {
            let which = random.below(3);
            (plan.takes_source, plan.background_takes_source) = (which != 0, which != 1);
        }
        Bar::MaskMap => {
            masks(random, plan);
            plan.mask_mode = MASK_ENABLED;
        }
        Bar::Compare => plan.condition = random.pick(&[0, 1, 2, 3, 5, 6, 7]),
        Bar::Arithmetic => plan.mix = 0x10 + random.below(6),
        Bar::Background => plan.background_mix = 0x10 + random.below(6),
        Bar::Mode => {
            plan.drawing_mode = match plan.walk == Walk::Rows {
                true => AREA_BOUNDARY,
                false => 1 + random.below(3),
            }
        }
        Bar::Format => {
            plan.takes_source = true;
            plan.source.order ^= MOTOROLA;
        }
    }
}
