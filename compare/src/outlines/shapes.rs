//! Random closed outlines, by lines, by codes or by both, inside a map or cut by its edges.

use super::edges::{Edge, Point};
use crate::random::Random;
use model::codes::DIRECTIONS;

/// The most steps of a code.
pub const LONGEST_CODE: i64 = 15;

/// How far an outline goes left of or above the map at most, and right of or below it: no line is then too long for its registers.
const FAR_LEFT: i64 = 1_500;
const FAR_RIGHT: i64 = 2_500;

/// What an outline is drawn by.
#[derive(Clone, Copy, Debug, PartialEq, Eq)]
pub enum Means {
    Lines,
    /// Lines that are level, upright or diagonal.
    StraightLines,
    Codes,
    LinesAndCodes,
}

pub const MEANS: [Means; 4] = [
    Means::Lines,
    Means::StraightLines,
    Means::Codes,
    Means::LinesAndCodes,
];

/// An edge, and whether a code draws it.
#[derive(Clone, Copy, Debug)]
pub struct Stroke {
    pub edge: Edge,
    pub is_code: bool,
}

/// A closed outline.
#[derive(Clone, Debug)]
pub struct Outline {
    /// The pixels of the map's row, and its rows.
    pub map: Point,
    /// Edges from each point to the next, loop by loop, each of which comes back to its first point.
    pub loops: Vec<Vec<Stroke>>,
}

/// Where the points of an outline may lie: the corners, both included.
struct Frame {
    first: Point,
    last: Point,
}

impl Outline {
    /// A random outline by these means.
    pub fn random(random: &mut Random, means: Means) -> Outline {
        let map = (side(random), side(random));
        let frame = Frame::random(random, map);
        let count = 1 + u32::from(random.once_in(4));
        Outline {
            map,
            loops: (0..count).map(|_| frame.closed(random, means)).collect(),
        }
    }

    /// The edges of all loops.
    pub fn edges(&self) -> Vec<Edge> {
        self.loops
            .iter()
            .flatten()
            .map(|stroke| stroke.edge)
            .collect()
    }
}

/// The pixels of a map's side, sometimes one alone.
fn side(random: &mut Random) -> i64 {
    let most = random.pick(&[8, 24, 24, 40]);
    1 + i64::from(random.below(most))
}

impl Frame {
    /// The map, and beyond some of its edges as far again, or now and then much further.
    fn random(random: &mut Random, map: Point) -> Frame {
        let sides = match random.below(6) {
            0 => 0b0000,
            5 => random.below(16),
            edge => 1 << (edge - 1),
        };
        let mut beyond = |edge: u32, side: i64, far: i64| match sides >> edge & 1 {
            0 => 0,
            _ if random.once_in(64) => far,
            _ => side,
        };
        let (left, right) = (beyond(0, map.0, FAR_LEFT), beyond(1, map.0, FAR_RIGHT));
        let (above, below) = (beyond(2, map.1, FAR_LEFT), beyond(3, map.1, FAR_RIGHT));
        Frame {
            first: (-left, -above),
            last: (map.0 - 1 + right, map.1 - 1 + below),
        }
    }

    /// A loop of some edges, and of those that close it.
    fn closed(&self, random: &mut Random, means: Means) -> Vec<Stroke> {
        let first = self.point(random);
        let mut strokes = Vec::new();
        let mut at = first;
        for _ in 0..2 + random.below(7) {
            let is_code = match means {
                Means::Lines | Means::StraightLines => false,
                Means::Codes => true,
                Means::LinesAndCodes => random.once_in(2),
            };
            let to = match means {
                Means::StraightLines => self.run_from(random, at, i64::MAX),
                _ if is_code => self.run_from(random, at, LONGEST_CODE),
                _ => self.point(random),
            };
            strokes.push(stroke(at, to, is_code));
            at = to;
        }
        match means {
            Means::Lines | Means::LinesAndCodes => strokes.push(stroke(at, first, false)),
            Means::StraightLines => strokes.extend(straight_way(at, first, i64::MAX, false)),
            Means::Codes => strokes.extend(straight_way(at, first, LONGEST_CODE, true)),
        }
        strokes
    }

    fn point(&self, random: &mut Random) -> Point {
        let mut between =
            |first: i64, last: i64| i64::from(random.between(first as i32, last as i32));
        (
            between(self.first.0, self.last.0),
            between(self.first.1, self.last.1),
        )
    }

    /// The end of a run in one of eight directions, which leaves the frame only by one step, and only where all would.
    fn run_from(&self, random: &mut Random, at: Point, longest: i64) -> Point {
        let first = random.below(8) as usize;
        let directions = (first..first + 8).map(|direction| DIRECTIONS[direction % 8]);
        let (room, (x, y)) = directions
            .map(|direction| (self.room(at, direction), direction))
            .find(|(room, _)| *room > 0)
            .unwrap_or((1, DIRECTIONS[first]));
        let steps = 1 + i64::from(random.below(room.min(longest) as u32));
        (at.0 + x * steps, at.1 + y * steps)
    }

    /// The steps in a direction that stay in the frame.
    fn room(&self, at: Point, direction: Point) -> i64 {
        let along = |step: i64, at: i64, first: i64, last: i64| match step {
            1 => last - at,
            -1 => at - first,
            _ => i64::MAX,
        };
        let x = along(direction.0, at.0, self.first.0, self.last.0);
        x.min(along(direction.1, at.1, self.first.1, self.last.1))
    }
}

fn stroke(from: Point, to: Point, is_code: bool) -> Stroke {
    let edge = Edge { from, to };
    Stroke { edge, is_code }
}

/// Diagonal edges and then level or upright ones, none longer than so many steps.
fn straight_way(from: Point, to: Point, longest: i64, is_code: bool) -> Vec<Stroke> {
    let mut strokes = Vec::new();
    let mut at = from;
    while at != to {
        let (right, down) = (to.0 - at.0, to.1 - at.1);
        let steps = match (right.abs(), down.abs()) {
            (0, steps) | (steps, 0) => steps,
            (one, other) => one.min(other),
        };
        let steps = steps.min(longest);
        let next = (at.0 + right.signum() * steps, at.1 + down.signum() * steps);
        strokes.push(stroke(at, next, is_code));
        at = next;
    }
    strokes
}
