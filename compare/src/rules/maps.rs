//! The start rules on the used maps of a drawing in hand, each broken by itself.

use super::{draws, from, of_record, Rule};
use crate::random::Random;
use crate::writes::MOTOROLA;
use model::operations::Operations;
use model::{Coprocessor, Map};

/// A map's use: its name, whether the operations have it, and the map.
type Role = (
    &'static str,
    fn(&Operations) -> bool,
    fn(&Operations) -> u32,
);

const ROLES: [Role; 4] = [
    ("destination", |_| true, |fields| fields.destination),
    ("source", Operations::uses_source, |fields| fields.source),
    ("pattern", Operations::uses_pattern, |fields| fields.pattern),
    ("mask", Operations::uses_mask, |_| 0),
];

/// Refusals 7 and 8.
pub fn rules() -> Vec<Rule> {
    let mut rules = formats();
    for (name, is_used, map) in ROLES {
        let fits = move |state: &Coprocessor| draws(state) && is_used(&state.registers.fields());
        rules.push(of_record(
            format!("end of the {name}"),
            fits,
            move |random, state| {
                let map = map(&state.registers.fields()) as usize;
                move_beyond(random, &mut state.registers.maps[map], state.size);
            },
        ));
    }
    rules
}

/// Refusal 7; the map still lies in the memory.
fn formats() -> Vec<Rule> {
    let destination_alone = |fields: &Operations| {
        let is_alone = !fields.uses_source_as_colour() || fields.source == fields.destination;
        (is_alone && fields.pattern != fields.destination).then_some(fields.destination)
    };
    vec![
        format("pixel code of the destination", 4..=7, destination_alone),
        format("pixel code with the order bit", 12..=15, destination_alone),
        format("pixel code of the source", 4..=7, |fields| {
            let is_alone = fields.uses_source() && !fields.uses_source_as_colour();
            (is_alone && fields.source != fields.destination).then_some(fields.source)
        }),
        format("source of another size", 0..=3, |fields| {
            let is_apart = fields.source != fields.destination && fields.source != fields.pattern;
            (fields.uses_source_as_colour() && is_apart).then_some(fields.source)
        }),
        format("pattern of more bits", 1..=3, |fields| {
            let is_shared = fields.pattern == fields.destination || fields.pattern == fields.source;
            let is_apart = !fields.uses_source_as_colour() || !is_shared;
            (fields.uses_pattern() && is_apart).then_some(fields.pattern)
        }),
        format("mask of more bits", 1..=3, |fields| {
            fields.uses_mask().then_some(0)
        }),
    ]
}

/// A rule that another pixel code breaks, in a map that the operations have where the rule can be broken by itself; its order bit stays.
fn format(
    name: &str,
    formats: std::ops::RangeInclusive<u8>,
    map: fn(&Operations) -> Option<u32>,
) -> Rule {
    let others = move |state: &Coprocessor| -> Vec<(usize, u8)> {
        let map = map(&state.registers.fields()).map(|map| map as usize);
        let formats = map
            .into_iter()
            .flat_map(|map| formats.clone().map(move |format| (map, format)));
        formats
            .filter(|(map, format)| {
                let old = state.registers.maps[*map];
                let new = with_format(old, *format);
                new.bits() != old.bits() && new.end() <= u64::from(state.size)
            })
            .collect()
    };
    let possible = others.clone();
    of_record(
        name,
        move |state| draws(state) && !possible(state).is_empty(),
        move |random, state| {
            let others = others(state);
            let (map, format) = others[random.below(others.len() as u32) as usize];
            let map = &mut state.registers.maps[map];
            *map = with_format(*map, format);
        },
    )
}

/// The map with another pixel code; an order bit is kept, or set where the format has it.
fn with_format(map: Map, format: u8) -> Map {
    let order = map.format & MOTOROLA as u8;
    Map {
        format: format | order,
        ..map
    }
}

/// Puts a map where it ends beyond the memory: by one byte, by many, by so many that 32 bits go round, or by its sides.
fn move_beyond(random: &mut Random, map: &mut Map, size: u32) {
    let needed = (map.end() - u64::from(map.base)) as u32;
    let first = size - needed + 1;
    map.base = match random.below(4) {
        0 => 0u32.wrapping_sub(1 + random.below(needed)),
        1 => {
            (map.width, map.height) = (4_095, 4_095);
            map.base
        }
        _ => from(random, first, u32::MAX),
    };
}
