//! The reductions of the registers, each broken by itself.

use super::{any, from, of_record, rests, Rule};
use crate::random::Random;
use crate::states::used_maps;
use model::{Coprocessor, Registers};

type Fits = fn(&Coprocessor) -> bool;
type Term = (&'static str, fn(&mut Registers) -> &mut i32);
type TwelveBits = (&'static str, Fits, fn(&mut Registers) -> &mut u16);
type Destination = (&'static str, fn(&mut Registers) -> &mut i16);

const MAPS: [&str; 4] = ["M", "A", "B", "C"];

const TERMS: [Term; 3] = [
    ("E", |registers| &mut registers.e),
    ("K1", |registers| &mut registers.k1),
    ("K2", |registers| &mut registers.k2),
];

#[rustfmt::skip]
const TWELVE_BITS: [TwelveBits; 8] = [
    ("dimension 1", any, |registers| &mut registers.dimension_1),
    ("dimension 2", any, |registers| &mut registers.dimension_2),
    ("mask origin X", any, |registers| &mut registers.mask_origin_x),
    ("mask origin Y", any, |registers| &mut registers.mask_origin_y),
    ("source X", is_source_free, |registers| &mut registers.source_x),
    ("source Y", is_source_free, |registers| &mut registers.source_y),
    ("pattern X", is_pattern_free, |registers| &mut registers.pattern_x),
    ("pattern Y", is_pattern_free, |registers| &mut registers.pattern_y),
];

const DESTINATIONS: [Destination; 2] = [
    ("destination X", |registers| &mut registers.destination_x),
    ("destination Y", |registers| &mut registers.destination_y),
];

/// The rules, in the order of the image.
pub fn rules() -> Vec<Rule> {
    let mut rules = vec![of_record("map index", any, |random, state| {
        state.registers.index = from(random, 4, 255) as u8;
    })];
    rules.extend((0..MAPS.len()).flat_map(of_map));
    rules.extend(TERMS.map(|(name, register)| {
        of_record(name, any, move |random, state| {
            *register(&mut state.registers) = outside_terms(random);
        })
    }));
    rules.push(of_record("condition", any, |random, state| {
        state.registers.condition = from(random, 8, 255) as u8;
    }));
    rules.extend(TWELVE_BITS.map(|(name, fits, register)| {
        of_record(name, fits, move |random, state| {
            *register(&mut state.registers) = from(random, 4_096, 65_535) as u16;
        })
    }));
    rules.extend(DESTINATIONS.map(|(name, register)| {
        of_record(name, any, move |random, state| {
            *register(&mut state.registers) = outside_destinations(random);
        })
    }));
    rules
}

/// Width, height and format of a map; the fields of a format that refusal 7 looks at stay.
fn of_map(index: usize) -> [Rule; 3] {
    // A wrong side of a used map would end beyond the memory too.
    let is_free = move |state: &Coprocessor| rests(state) || !used_maps(state).contains(&index);
    let name = |part| format!("{part} {}", MAPS[index]);
    [
        of_record(name("width"), is_free, move |random, state| {
            state.registers.maps[index].width = from(random, 4_096, 65_535) as u16;
        }),
        of_record(name("height"), is_free, move |random, state| {
            state.registers.maps[index].height = from(random, 4_096, 65_535) as u16;
        }),
        of_record(name("format"), any, move |random, state| {
            state.registers.maps[index].format |= (from(random, 1, 15) << 4) as u8;
        }),
    ]
}

/// Whether the source pointers are unused; a used one of so many bits would lie outside its map too.
fn is_source_free(state: &Coprocessor) -> bool {
    rests(state) || !state.registers.fields().uses_source()
}

fn is_pattern_free(state: &Coprocessor) -> bool {
    rests(state) || !state.registers.fields().uses_pattern()
}

/// A number outside -8,192 to 8,191, some of them negative ones that are not sign-extended.
fn outside_terms(random: &mut Random) -> i32 {
    match random.below(4) {
        0 => 8_192,
        1 => -8_193,
        2 => random.between(8_192, 65_535),
        // Two high bits that differ are no sign extension.
        _ => (random.word() | 0x0001_0000) as i32 & !0x4000_0000,
    }
}

/// A number outside -2,048 to 6,143.
fn outside_destinations(random: &mut Random) -> i16 {
    let number = match random.below(4) {
        0 => 6_144,
        1 => -2_049,
        2 => random.between(6_144, 32_767),
        _ => random.between(-32_768, -2_049),
    };
    number as i16
}
