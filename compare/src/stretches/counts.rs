//! What a comparison of stretches met.

use super::bars;
use super::cases::{Family, FAMILIES, RAGGED};
use super::hindered::Hindered;
use super::near;
use super::patterned::Patterned;
use super::plans::{Plan, Walk};
use super::reads::Apart;
use super::rule::{self, Cut, Kind, Piece, Standing};
use super::slid::Slid;
use super::strokes::counts::Strokes;
use super::taken::{beside_map, Taken};
use super::tally::{self, Tally};
use crate::drawings::Loads;
use model::operations::MASK_BOUNDARY;
use model::{moves, Coprocessor};
use std::collections::BTreeSet;
use std::fmt;

const SINGLES: [&str; 6] = [
    "left of the map",
    "right of the map",
    "above or below the map",
    "outside the mask boundary",
    "over what is read",
    "where a stretch could begin",
];

const OVERLAPS: [&str; 2] = ["two maps", "one map"];

/// From one end of the destination's circle to the other.
const CIRCLE: i32 = 6_143 + 2_048;

const MASKS: [&str; 5] = ["not at all", "left", "right", "left and right", "wholly"];

/// What was met.
pub struct Counts {
    families: Tally,
    /// The formats, first columns and widths of ragged blocks.
    ragged: BTreeSet<(u32, i64, i64)>,
    overlaps: Tally,
    masks: Tally,
    hindered: Hindered,
    arithmetic: Tally,
    singles: Tally,
    /// Steps from one end of the destination's circle to the other.
    passes: Tally,
    taken: Taken,
    slid: Slid,
    patterned: Patterned,
    strokes: Strokes,
    pub carried: Loads,
    pub cut_everywhere: u64,
    pub put_elsewhere: u64,
}

impl Default for Counts {
    fn default() -> Counts {
        let arithmetic = (0x10..=0x15).map(|mix| format!("{mix:X}"));
        Counts {
            families: Tally::new("made for", FAMILIES),
            ragged: BTreeSet::new(),
            overlaps: Tally::new("overlaps of", OVERLAPS),
            masks: Tally::new("blocks whose rows a mask boundary cuts", MASKS),
            hindered: Hindered::default(),
            arithmetic: Tally::new("drawings with an arithmetic mix", arithmetic),
            singles: Tally::both_ways("positions one by one in a block with stretches", &SINGLES),
            passes: Tally::both_ways("steps over the end", &["of the destination's circle"]),
            taken: Taken::default(),
            slid: Slid::default(),
            patterned: Patterned::default(),
            strokes: Strokes::default(),
            carried: Loads::default(),
            cut_everywhere: 0,
            put_elsewhere: 0,
        }
    }
}

impl Counts {
    /// Counts a drawing just begun.
    pub fn note_start(&mut self, family: Family, plan: &Plan, state: &Coprocessor) {
        self.families.note(family as usize, 1);
        if family == Family::Ragged {
            let format = plan.code | plan.order;
            self.ragged.insert((format, plan.corner.0, plan.size.0));
        }
        if family == Family::Overlaps {
            let is_one = plan.source.apart == Apart::Same;
            self.overlaps.note(is_one.into(), 1);
        }
        if plan.mask_mode == MASK_BOUNDARY && plan.walk == Walk::Rows {
            self.masks.note(mask_cut(plan), 1);
        }
        if let Some(mix) = state.registers.foreground_mix.checked_sub(0x10) {
            self.arithmetic.note(mix.into(), 1);
        }
    }

    /// Counts the positions of a run of so many by how the library takes them.
    pub fn note_run(&mut self, state: &Coprocessor, allowance: u32) {
        let mut left = state.left().min(u64::from(allowance)) as u32;
        if let Some(bar) = bars::bar(&state.registers) {
            self.hindered.note(&state.registers, bar, left);
            return;
        }
        let mut state = state.clone();
        let mut is_after_singles = false;
        while left > 0 {
            let piece = rule::piece(&state, left);
            self.note_near(&state, left);
            if let Piece::Stretch(length, cut) = piece {
                self.note_stretch(&state, length, cut, is_after_singles);
            }
            is_after_singles = matches!(piece, Piece::Singles(_));
            for _ in 0..piece.length() {
                if is_after_singles {
                    self.note_single(&state, left);
                }
                self.advance(&mut state);
                left -= 1;
            }
        }
    }

    /// Counts the stretch of so many positions that comes next, after single ones or not.
    fn note_stretch(&mut self, state: &Coprocessor, length: u32, cut: Cut, is_after_singles: bool) {
        match rule::kind(state) {
            Kind::Solid | Kind::Copy => self.taken.note(state, length, cut),
            Kind::Slide => self.slid.note(state, length, cut),
            Kind::Pattern => self.patterned.note(state, length, cut),
            Kind::Stroke => self.strokes.note(state, length, cut, is_after_singles),
        }
    }

    /// Counts how far that which the next positions read lies from what they draw into, where it matters.
    fn note_near(&mut self, state: &Coprocessor, allowance: u32) {
        if rule::outside(&state.registers).is_some() {
            return;
        }
        if let Some(read) = rule::read(state) {
            let tally = match rule::kind(state) {
                Kind::Pattern => &mut self.patterned.near,
                _ => &mut self.slid.near,
            };
            let length = rule::stretch(state, allowance).length();
            near::note(tally, state, read, length);
        }
    }

    /// Passes to the next position.
    fn advance(&mut self, state: &mut Coprocessor) {
        let x = state.registers.destination_x;
        state.drawing = moves::advance(&mut state.registers, state.drawing, true);
        let step = i32::from(state.registers.destination_x) - i32::from(x);
        if step.abs() == CIRCLE {
            self.passes.note_way(step > 0, 0, 1);
        }
    }

    /// Counts the next position as a single one, if at most so many are done.
    fn note_single(&mut self, state: &Coprocessor, allowance: u32) {
        if bars::is_stroke(&state.registers) {
            self.strokes.note_single(state, allowance);
            return;
        }
        let single = match rule::standing(state, allowance) {
            Standing::OutsideMap => beside_map(&state.registers),
            Standing::OutsideMask => 3,
            Standing::Shared => 4,
            Standing::Fit | Standing::AtEdge | Standing::Moved => 5,
        };
        let is_back = state.registers.fields().x_sign() < 0;
        self.singles.note_way(is_back, single, 1);
    }

    /// What was never met.
    pub fn never_met(&self) -> Option<String> {
        let tallies = [
            &self.families,
            &self.overlaps,
            &self.masks,
            &self.arithmetic,
            &self.singles,
            &self.passes,
        ];
        let ragged = RAGGED - self.ragged.len() as u64;
        let never = (ragged > 0).then(|| format!("{ragged} ragged blocks were never met"));
        let ways = [self.carried.all(), self.cut_everywhere, self.put_elsewhere];
        let is_any_0 = ways.contains(&0);
        never
            .or_else(|| is_any_0.then(|| "nothing was carried, cut or put elsewhere".to_string()))
            .or_else(|| tally::never_met(&tallies))
            .or_else(|| self.taken.never_met())
            .or_else(|| self.slid.never_met())
            .or_else(|| self.patterned.never_met())
            .or_else(|| self.strokes.never_met())
            .or_else(|| self.hindered.never_met())
    }
}

/// Which ends of the block's rows lie outside the mask's columns.
fn mask_cut(plan: &Plan) -> usize {
    let (first, last) = (plan.corner.0, plan.corner.0 + plan.size.0 - 1);
    let ((left, _), (width, _)) = plan.mask;
    let right = left + width - 1;
    match (first < left, last > right) {
        _ if last < left || first > right => 4,
        (is_left, is_right) => usize::from(is_left) + 2 * usize::from(is_right),
    }
}

impl fmt::Display for Counts {
    fn fmt(&self, lines: &mut fmt::Formatter) -> fmt::Result {
        let (taken, slid, patterned) = (&self.taken, &self.slid, &self.patterned);
        write!(
            lines,
            "stretches: {} drawings; {} positions in {} stretches, {} in {} strokes, {} one by one",
            self.families.sum(),
            taken.positions() + slid.positions() + patterned.positions(),
            taken.stretches() + slid.stretches() + patterned.stretches(),
            self.strokes.positions(),
            self.strokes.strokes(),
            self.singles.sum() + self.strokes.singles() + self.hindered.positions()
        )?;
        write!(
            lines,
            "{}\n  {} of {RAGGED} formats, first columns and widths of ragged ends",
            self.families,
            self.ragged.len()
        )?;
        write!(lines, "{taken}{slid}{patterned}{}", self.singles)?;
        write!(lines, "{}{}", self.strokes, self.hindered)?;
        let lasts = [&self.passes, &self.arithmetic, &self.masks, &self.overlaps];
        tally::write_all(lines, &lasts)?;
        write!(
            lines,
            "\n  {} loads into another coprocessor; {} drawings cut at every position, {} begun at any counters",
            self.carried.all(),
            self.cut_everywhere,
            self.put_elsewhere
        )
    }
}
