//! The start rules on the pixel operations and mixes of a drawing in hand, each broken by itself.

use super::{draws, from, of_record, Rule};
use crate::random::Random;
use model::{Coprocessor, Drawing};

const NO_MAPS: [u32; 13] = [0, 4, 5, 6, 7, 8, 9, 10, 11, 12, 13, 14, 15];

/// The octant bit of negative X.
const LEFT: u32 = 0b100;

/// A field of the pixel operations.
struct Field {
    name: &'static str,
    first_bit: u32,
    ones: u32,
    /// The values that no start accepts.
    refused: &'static [u32],
    fits: fn(&Coprocessor) -> bool,
}

const FIELDS: [Field; 7] = [
    Field {
        name: "function",
        first_bit: 24,
        ones: 0xF,
        refused: &[0, 1, 6, 7, 11, 12, 13, 14, 15],
        fits: draws,
    },
    Field {
        name: "foreground source",
        first_bit: 28,
        ones: 0b11,
        refused: &[0b01, 0b11],
        fits: draws,
    },
    Field {
        name: "background source",
        first_bit: 30,
        ones: 0b11,
        refused: &[0b01, 0b11],
        fits: draws,
    },
    Field {
        name: "destination map",
        first_bit: 16,
        ones: 0xF,
        refused: &NO_MAPS,
        fits: draws,
    },
    Field {
        name: "pattern",
        first_bit: 12,
        ones: 0xF,
        refused: &[0, 4, 5, 6, 7, 10, 11, 12, 13, 14, 15],
        fits: draws,
    },
    Field {
        name: "mask 11",
        first_bit: 6,
        ones: 0b11,
        refused: &[0b11],
        fits: draws,
    },
    Field {
        name: "source map",
        first_bit: 20,
        ones: 0xF,
        refused: &NO_MAPS,
        fits: draws_with_source,
    },
];

/// Refusals 4, 5 and 6.
pub fn rules() -> Vec<Rule> {
    let fields = FIELDS.into_iter().map(|field| {
        of_record(field.name, field.fits, move |random, state| {
            let operations = &mut state.registers.operations;
            let value = field.refused_value(random, *operations >> field.first_bit);
            *operations = *operations & !(field.ones << field.first_bit) | value << field.first_bit;
        })
    });
    let mut rules: Vec<Rule> = fields.collect();
    rules.push(of_record("a fill to the left", is_fill, |_, state| {
        state.registers.operations |= LEFT;
    }));
    rules.push(of_record(
        "a fill without a pattern map",
        is_fill,
        |random, state| {
            // Code 9 uses the source, of which nothing must be wrong.
            let uses_source = state.registers.fields().uses_source();
            let code = if uses_source && random.once_in(2) {
                9
            } else {
                8
            };
            let operations = &mut state.registers.operations;
            *operations = *operations & !(0xF << 12) | code << 12;
        },
    ));
    rules.push(of_record("foreground mix", draws, |random, state| {
        state.registers.foreground_mix = from(random, 0x16, 0xFF) as u8;
    }));
    rules.push(of_record("background mix", draws, |random, state| {
        state.registers.background_mix = from(random, 0x16, 0xFF) as u8;
    }));
    rules
}

impl Field {
    /// A refused value, every other time one with the two low bits of the value that was there, if there is one.
    fn refused_value(&self, random: &mut Random, old: u32) -> u32 {
        let is_alike = |value: &u32| (value ^ old) & 0b11 == 0;
        let alike: Vec<u32> = self.refused.iter().copied().filter(is_alike).collect();
        if alike.is_empty() || random.once_in(2) {
            random.pick(self.refused)
        } else {
            random.pick(&alike)
        }
    }
}

fn draws_with_source(state: &Coprocessor) -> bool {
    draws(state) && state.registers.fields().uses_source()
}

fn is_fill(state: &Coprocessor) -> bool {
    matches!(state.drawing, Drawing::Fill { .. })
}
