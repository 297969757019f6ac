//! Random drawings just started, and random damage to a record.

use compare::random::Random;
use compare::random_drawings::{drawing, started, FUNCTIONS};
use model::registers::LISTED;
use model::{Coprocessor, Drawing};

/// A drawing just started, of any function, and its memory.
pub fn any_started(random: &mut Random) -> (Coprocessor, Vec<u8>) {
    let function = random.pick(&FUNCTIONS);
    started(&drawing(random, function))
}

/// Puts random values, not reduced, into one register, the size or the drawing in hand of the record.
pub fn damage(random: &mut Random, coprocessor: &mut Coprocessor) {
    match random.below(10) {
        0 => coprocessor.size = random.word() >> random.below(32),
        1 | 2 => coprocessor.drawing = any_drawing(random),
        3 | 4 => turn_bit(&mut coprocessor.drawing),
        _ => {
            let map = random.below(4) as usize;
            let (first, bytes, _) = LISTED[random.below(LISTED.len() as u32) as usize];
            for offset in first..first + bytes {
                let byte = random.word() as u8;
                coprocessor.registers.take_byte(map, offset, byte);
            }
        }
    }
}

/// Any drawing in hand, with small or large counters.
fn any_drawing(random: &mut Random) -> Drawing {
    let limit = random.pick(&[2, 5, 20, 65_536]);
    let mut counter = || random.below(limit) as u16;
    let (first, second) = (counter(), counter());
    let bit = random.once_in(2);
    match random.below(5) {
        0 => Drawing::Nothing { stopped: bit },
        1 => Drawing::Line {
            done: first,
            rose: bit,
        },
        2 => Drawing::Codes {
            count: random.below(6) as u8,
            code: first,
            done: second,
        },
        3 => Drawing::Block {
            column: first,
            row: second,
        },
        _ => Drawing::Fill {
            column: first,
            row: second,
            inside: bit,
        },
    }
}

/// Turns the bit of a drawing that has one.
fn turn_bit(drawing: &mut Drawing) {
    match drawing {
        Drawing::Line { rose: bit, .. } | Drawing::Fill { inside: bit, .. } => *bit = !*bit,
        _ => {}
    }
}
