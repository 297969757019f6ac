//! Random closed outlines, drawn as area boundaries and then filled through the proved library, against plain geometry.

mod counts;
mod crossings;
mod edges;
mod geometry;
mod map;
mod shapes;
mod station;

use crate::panics;
use crate::progress::Steps;
use crate::random::Random;
use counts::Counts;
use edges::{Edge, Point};
use map::Map;
use shapes::{Outline, Stroke, MEANS};
use station::{Manner, Station};

/// The outlines from which on every kind must have been met.
const MANY: u64 = 1_000;

/// Compares an outline in each step, by all means in turn.
pub fn compare(random: &mut Random, steps: Steps) -> Result<Counts, String> {
    let count = steps.asked;
    let mut counts = Counts::default();
    for (_, means) in steps.zip(MEANS.into_iter().cycle()) {
        let outline = Outline::random(random, means);
        counts.note_outline(means, &outline);
        panics::caught(|| one(random, &outline, &mut counts))
            .map_err(|difference| format!("{difference}\nin {outline:?}"))?;
    }
    match counts.never_met().filter(|_| count >= MANY) {
        Some(never) => Err(never),
        None => Ok(counts),
    }
}

/// Draws and fills one outline.
fn one(random: &mut Random, outline: &Outline, counts: &mut Counts) -> Result<(), String> {
    let mut station = Station::new(random, outline.map)?;
    let crossed = draw(random, &mut station, outline, counts)?;
    let inside = crossed.inside();
    hold_against_geometry(&outline.edges(), &inside, counts)?;

    let manner = manner(random, outline.map);
    counts.note_fill(&manner, station.orders);
    let before = station.filled();
    station.fill(&manner)?;
    let expected = |(at, is_inside): (Point, &bool), old: u32| match is_inside {
        true if manner.shows(at) => manner.colour & station.ones(),
        _ => old,
    };
    let pixels = inside.pixels().zip(before);
    let expected: Vec<u32> = pixels.map(|(pixel, old)| expected(pixel, old)).collect();
    if station.filled() != expected || station.outline() != crossed.values {
        return Err(format!("filled otherwise, {manner:?}"));
    }
    if random.once_in(4) {
        counts.note_fill_in_place();
        let manner = Manner {
            colour: 1,
            mask: None,
            ..manner
        };
        station.fill_in_place(&manner)?;
        if station.filled() != expected || station.outline() != inside.values {
            return Err(format!("filled otherwise in place, {manner:?}"));
        }
    }
    match station.are_guards_kept() {
        true => Ok(()),
        false => Err("a byte outside image or memory was written".to_string()),
    }
}

/// Draws the outline, edge by edge or write by write, after each of which its map has what the closed form says.
fn draw(
    random: &mut Random,
    station: &mut Station,
    outline: &Outline,
    counts: &mut Counts,
) -> Result<Map, String> {
    let mut crossed = Map::new(outline.map);
    for strokes in &outline.loops {
        station.begin(strokes[0].edge.from)?;
        let mut left = &strokes[..];
        while let Some(next) = left.first() {
            let (drawn, rest) = left.split_at(drawn_at_once(random, left));
            match next.is_code {
                true => station.codes(drawn)?,
                false => station.line(&next.edge)?,
            }
            for stroke in drawn {
                crossed.cross(&stroke.edge, counts);
            }
            if station.outline() != crossed.values {
                return Err(format!("drawn otherwise: {drawn:?}"));
            }
            left = rest;
        }
    }
    Ok(crossed)
}

/// One line, or up to four codes.
fn drawn_at_once(random: &mut Random, strokes: &[Stroke]) -> usize {
    let codes = strokes.iter().take_while(|stroke| stroke.is_code).count();
    codes.min(1 + random.below(4) as usize).max(1)
}

/// That every pixel not near an edge is inside exactly where plain geometry has it so.
fn hold_against_geometry(edges: &[Edge], inside: &Map, counts: &mut Counts) -> Result<(), String> {
    for (at, is_inside) in inside.pixels() {
        let is_near = edges.iter().any(|edge| geometry::is_near(edge, at));
        if !is_near && geometry::is_inside(edges, at) != *is_inside {
            return Err(format!("pixel {at:?} is on the other side"));
        }
        counts.pixels += 1;
        counts.inside += u64::from(*is_inside);
        counts.near += u64::from(is_near);
    }
    Ok(())
}

/// A way to fill a map of this size.
fn manner(random: &mut Random, (width, height): Point) -> Manner {
    let mut below = |limit: i64| i64::from(random.below(limit as u32));
    let corner = (below(width), below(height));
    let size = (1 + below(width), 1 + below(height));
    let short = 1 + random.below(9);
    Manner {
        colour: random.word(),
        is_up: random.once_in(2),
        mask: random.once_in(4).then_some((corner, size)),
        allowance: random.pick(&[u32::MAX, u32::MAX, short]),
    }
}
