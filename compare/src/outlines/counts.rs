//! What a comparison of outlines met.

use super::edges::Point;
use super::shapes::{Means, Outline, MEANS};
use super::station::Manner;
use crate::report;
use crate::writes::MOTOROLA;
use std::fmt;

const MEANS_NAMES: [&str; 4] = [
    "by lines",
    "by level, upright and diagonal lines",
    "by codes",
    "by lines and codes",
];

const PLACES: [&str; 5] = [
    "wholly inside",
    "cut at the left",
    "at the right",
    "at the top",
    "at the bottom",
];

const MANNERS: [&str; 5] = [
    "downwards",
    "upwards",
    "through a mask boundary",
    "by short runs",
    "in place",
];

/// The orders of the outline's map and of the filled one.
const ORDERS: [&str; 4] = [
    "from Intel to Intel",
    "from Motorola to Intel",
    "from Intel to Motorola",
    "from Motorola to Motorola",
];

/// What was met.
#[derive(Default)]
pub struct Counts {
    means: [u64; MEANS.len()],
    places: [u64; PLACES.len()],
    manners: [u64; MANNERS.len()],
    orders: [u64; ORDERS.len()],
    pub edges: u64,
    /// Crossings in the map's rows, those of them left of the map, and those where a tie decides.
    pub crossings: u64,
    pub left_of_the_map: u64,
    pub ties: u64,
    /// Pixels, those of them that are inside, and those within half a pixel of an edge.
    pub pixels: u64,
    pub inside: u64,
    pub near: u64,
}

impl Counts {
    /// Counts an outline by its means and by the edges of the map that cut it.
    pub fn note_outline(&mut self, means: Means, outline: &Outline) {
        let edges = outline.edges();
        let is_any =
            |lies: fn(Point, Point) -> bool| edges.iter().any(|edge| lies(edge.from, outline.map));
        let cuts = [
            is_any(|point, _| point.0 < 0),
            is_any(|point, map| point.0 >= map.0),
            is_any(|point, _| point.1 < 0),
            is_any(|point, map| point.1 >= map.1),
        ];
        self.means[means as usize] += 1;
        self.places[0] += u64::from(!cuts.contains(&true));
        for (times, is_cut) in self.places[1..].iter_mut().zip(cuts) {
            *times += u64::from(is_cut);
        }
        self.edges += edges.len() as u64;
    }

    /// Counts a fill by its manner, and by the order bits of the outline's map and of the filled one.
    pub fn note_fill(&mut self, manner: &Manner, orders: [u32; 2]) {
        let [outline, filled] = orders.map(|order| usize::from(order == MOTOROLA));
        self.orders[outline + 2 * filled] += 1;
        self.manners[usize::from(manner.is_up)] += 1;
        self.manners[2] += u64::from(manner.mask.is_some());
        self.manners[3] += u64::from(manner.allowance < u32::MAX);
    }

    /// Counts a fill in place.
    pub fn note_fill_in_place(&mut self) {
        self.manners[4] += 1;
    }

    /// What was never met.
    pub fn never_met(&self) -> Option<String> {
        let kinds = [&self.means[..], &self.places, &self.manners, &self.orders].concat();
        let names = [&MEANS_NAMES[..], &PLACES, &MANNERS, &ORDERS].concat();
        let numbers = [self.left_of_the_map, self.ties, self.inside, self.near];
        let mut named = names.into_iter().zip(kinds);
        let kind = named.find(|(_, times)| *times == 0).map(|(name, _)| name);
        let number = numbers.contains(&0).then_some("left, tie, inside or near");
        kind.or(number)
            .map(|name| format!("no outline was met: {name}"))
    }
}

impl fmt::Display for Counts {
    fn fmt(&self, lines: &mut fmt::Formatter) -> fmt::Result {
        let outlines: u64 = self.means.iter().sum();
        write!(
            lines,
            "outlines: {outlines}, of {} edges; {} crossings in their columns, {} of them left of the map, {} at a tie",
            self.edges, self.crossings, self.left_of_the_map, self.ties
        )?;
        write!(lines, "{}", report::met("drawn", &MEANS_NAMES, &self.means))?;
        write!(
            lines,
            "{}",
            report::met("in the map", &PLACES, &self.places)
        )?;
        write!(lines, "{}", report::met("filled", &MANNERS, &self.manners))?;
        let title = "by order";
        write!(lines, "{}", report::met(title, &ORDERS, &self.orders))?;
        write!(
            lines,
            "\n  {} pixels, {} of them inside; {} within half a pixel of an edge, the others as plain geometry has them",
            self.pixels, self.inside, self.near
        )
    }
}
