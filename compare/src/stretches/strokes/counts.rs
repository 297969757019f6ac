//! What was met of strokes, and of single positions between them.

use crate::stretches::places;
use crate::stretches::rule::{self, Cut, Standing};
use crate::stretches::taken::{beside_map, format_of, planes_of, FORMATS, PLANES};
use crate::stretches::tally::{self, Tally};
use model::{circle, codes};
use model::{moves, Coprocessor, Drawing, Map};
use std::fmt;

/// What ends a stroke: its own end, the allowance, and each edge of map and mask.
const CUTS: [&str; 10] = [
    "end",
    "allowance",
    "map's left edge",
    "map's right edge",
    "map's upper edge",
    "map's lower edge",
    "mask's left edge",
    "mask's right edge",
    "mask's upper edge",
    "mask's lower edge",
];

const LENGTHS: [&str; 4] = [
    "of one position",
    "of 2 to 7",
    "of 8 to 31",
    "of 32 or more",
];

const BEGINNINGS: [&str; 3] = [
    "with the line or code",
    "within it at the first position of a run",
    "within it after single positions",
];

const STEPS: [&str; 3] = ["along X", "along Y", "along both"];

/// The last is of codes alone.
const SINGLES: [&str; 7] = [
    "left of the map",
    "right of the map",
    "above or below the map",
    "outside the mask boundary",
    "before a step outside",
    "where a stroke could begin",
    "of a code that only moves",
];

/// What was met, of lines and of codes where there are two.
pub struct Strokes {
    /// By octant and by direction.
    directions: [Tally; 2],
    cuts: [Tally; 2],
    singles: [Tally; 2],
    lengths: Tally,
    beginnings: Tally,
    steps: Tally,
    /// Steps of lines after which E came round its circle.
    rounds: Tally,
    formats: Tally,
    mixes: Tally,
    planes: Tally,
}

impl Default for Strokes {
    fn default() -> Strokes {
        let octants = (0..8).map(|octant| format!("{octant:03b}"));
        Strokes {
            directions: [
                Tally::new("positions in strokes of lines, by octant", octants),
                Tally::new("positions in strokes of codes, by direction", 0..8),
            ],
            cuts: [
                Tally::new("strokes of lines, by what ends them", CUTS),
                Tally::new("strokes of codes, by what ends them", CUTS),
            ],
            singles: [
                Tally::new("positions one by one in lines with strokes", &SINGLES[..6]),
                Tally::new("positions one by one in codes with strokes", SINGLES),
            ],
            lengths: Tally::new("strokes", LENGTHS),
            beginnings: Tally::new("strokes that begin", BEGINNINGS),
            steps: Tally::new("steps in strokes of lines", STEPS),
            rounds: Tally::new("steps in strokes of lines after which E", ["comes round"]),
            formats: Tally::new("positions in strokes, by format", FORMATS),
            mixes: tally::of_mixes("positions in strokes, by mix"),
            planes: Tally::new("positions in strokes, in", PLANES),
        }
    }
}

impl Strokes {
    /// Counts the stroke of so many positions that comes next, after single ones or not.
    pub fn note(&mut self, state: &Coprocessor, length: u32, cut: Cut, is_after_singles: bool) {
        let registers = &state.registers;
        let (sort, direction, done) = walk(state);
        self.directions[sort].note(direction, length);
        let longer = [2, 8, 32].iter().filter(|least| length >= **least);
        self.lengths.note(longer.count(), 1);
        let beginning = match done {
            0 => 0,
            _ => 1 + usize::from(is_after_singles),
        };
        self.beginnings.note(beginning, 1);
        let map = places::destination(registers).map;
        self.formats.note(format_of(map), length);
        self.mixes.note(registers.foreground_mix.into(), length);
        self.planes.note(planes_of(registers), length);

        let mut state = state.clone();
        for _ in 0..length {
            self.note_step(&state);
            state.drawing = moves::advance(&mut state.registers, state.drawing, true);
        }
        self.cuts[sort].note(place_of(&state, cut), 1);
    }

    /// Counts the step that follows the next position of a line.
    fn note_step(&mut self, state: &Coprocessor) {
        let registers = &state.registers;
        match state.drawing {
            Drawing::Line { done, .. } if done < registers.dimension_1 => {
                let ((x, y), term) = moves::line_step(registers);
                let axes = usize::from(x != 0) + 2 * usize::from(y != 0);
                self.steps.note(axes - 1, 1);
                let e = i64::from(registers.e) + i64::from(term);
                self.rounds.note(0, (circle::TERMS.reduce(e) != e).into());
            }
            _ => {}
        }
    }

    /// Counts the next position as a single one, if at most so many are done.
    pub fn note_single(&mut self, state: &Coprocessor, allowance: u32) {
        let single = match rule::standing(state, allowance) {
            Standing::OutsideMap => beside_map(&state.registers),
            Standing::OutsideMask => 3,
            Standing::AtEdge => 4,
            Standing::Fit | Standing::Shared => 5,
            Standing::Moved => 6,
        };
        self.singles[walk(state).0].note(single, 1);
    }

    pub fn positions(&self) -> u64 {
        self.mixes.sum()
    }

    pub fn strokes(&self) -> u64 {
        self.lengths.sum()
    }

    pub fn singles(&self) -> u64 {
        self.singles.iter().map(Tally::sum).sum()
    }

    /// What was never met.
    pub fn never_met(&self) -> Option<String> {
        tally::never_met(&self.tallies())
    }

    fn tallies(&self) -> [&Tally; 13] {
        [
            &self.directions[0],
            &self.directions[1],
            &self.cuts[0],
            &self.cuts[1],
            &self.lengths,
            &self.beginnings,
            &self.steps,
            &self.rounds,
            &self.formats,
            &self.mixes,
            &self.planes,
            &self.singles[0],
            &self.singles[1],
        ]
    }
}

/// Whether the drawing is of codes, its octant or direction, and the positions done of its line or code.
fn walk(state: &Coprocessor) -> (usize, usize, u16) {
    let registers = &state.registers;
    match state.drawing {
        Drawing::Codes { count, code, done } => {
            let byte = codes::byte(registers.steps, count, code).unwrap_or(codes::STOP);
            (1, usize::from(byte >> 5), done)
        }
        Drawing::Line { done, .. } => (0, registers.fields().octant as usize, done),
        _ => (0, 0, 0),
    }
}

/// The place of a cut among the cuts, at the position after the stroke, whose step may lead over an edge.
fn place_of(state: &Coprocessor, cut: Cut) -> usize {
    let mut registers = state.registers.clone();
    moves::advance(&mut registers, state.drawing, true);
    let [x, y] = [registers.destination_x, registers.destination_y].map(i64::from);
    let [left, top] = [registers.mask_origin_x, registers.mask_origin_y].map(i64::from);
    match cut {
        Cut::End | Cut::Wrap => 0,
        Cut::Allowance => 1,
        Cut::MapEdge => 2 + edge(registers.map(registers.fields().destination), x, y),
        Cut::MaskEdge => 6 + edge(registers.mask_map(), x - left, y - top),
    }
}

/// The edge of a map over which a position lies: left, right, upper or lower.
fn edge(map: &Map, x: i64, y: i64) -> usize {
    let edges = [x < 0, x > map.width.into(), y < 0, true];
    edges.iter().take_while(|is_over| !**is_over).count()
}

impl fmt::Display for Strokes {
    fn fmt(&self, lines: &mut fmt::Formatter) -> fmt::Result {
        tally::write_all(lines, &self.tallies())
    }
}
