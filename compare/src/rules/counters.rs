//! The rules on the counters and on the codes, each broken by itself.

use super::{any_of, from, of_bytes, of_record, Rule};
use crate::random::Random;
use model::codes::{self, Code};
use model::image;
use model::{Coprocessor, Drawing};

/// The rules, in the paper's order.
pub fn rules() -> Vec<Rule> {
    vec![
        of_bytes("zero while idle", is_idle, |random, bytes| {
            bytes[any_of(random, image::COUNTERS)] = from(random, 1, 255) as u8;
        }),
        of_bytes("zero after a stop", is_stopped, |random, bytes| {
            bytes[any_of(random, image::COUNTERS)] = from(random, 1, 255) as u8;
        }),
        of_record("a line's positions", is_line, |random, state| {
            if let Drawing::Line { done, .. } = &mut state.drawing {
                *done = after(random, state.registers.dimension_1);
            }
        }),
        of_record("a code's positions", is_codes, |random, state| {
            if let Drawing::Codes { count, code, .. } = state.drawing {
                let done = after(random, current(state).steps);
                state.drawing = Drawing::Codes { count, code, done };
            }
        }),
        of_record("codes done", has_no_stop, |random, state| {
            if let Drawing::Codes { count, .. } = state.drawing {
                let code = from(random, u32::from(count), 65_535) as u16;
                state.drawing = codes_at(count, code);
            }
        }),
        of_record("a row's positions", has_rows, |random, state| {
            if let Drawing::Block { column, .. } | Drawing::Fill { column, .. } = &mut state.drawing
            {
                *column = after(random, state.registers.dimension_1);
            }
        }),
        of_record("rows done", has_rows, |random, state| {
            if let Drawing::Block { row, .. } | Drawing::Fill { row, .. } = &mut state.drawing {
                *row = after(random, state.registers.dimension_2);
            }
        }),
        of_bytes("a line's rows", is_line, |random, bytes| {
            bytes[any_of(random, image::ROWS_OR_CODES_DONE)] = from(random, 1, 255) as u8;
        }),
        of_bytes("a line's codes", is_line, |random, bytes| {
            bytes[image::CODES_AT] = from(random, 1, 255) as u8;
        }),
        of_bytes("a block's codes", has_rows, |random, bytes| {
            bytes[image::CODES_AT] = from(random, 1, 255) as u8;
        }),
        of_record("codes in the write", has_no_stop, |random, state| {
            let more = from(random, 5, 255);
            // Three codes are all there, so that nothing but their number is wrong.
            state.drawing = match random.pick(&[3, 3, 0, more]) as u8 {
                3 => codes_at(3, random.below(3) as u16),
                count => codes_at(count, 0),
            };
        }),
        of_record("an earlier code 00", is_past_a_code, |random, state| {
            if let Drawing::Codes { count, code, .. } = state.drawing {
                stop_at(state, count, random.below(u32::from(code)));
            }
        }),
        of_record("the current code 00", is_at_a_code, |_, state| {
            if let Drawing::Codes { count, code, .. } = state.drawing {
                stop_at(state, count, u32::from(code));
            }
        }),
    ]
}

fn is_idle(state: &Coprocessor) -> bool {
    state.drawing == Drawing::Nothing { stopped: false }
}

fn is_stopped(state: &Coprocessor) -> bool {
    state.drawing == Drawing::Nothing { stopped: true }
}

fn is_line(state: &Coprocessor) -> bool {
    matches!(state.drawing, Drawing::Line { .. })
}

/// Whether a block is drawn or filled.
fn has_rows(state: &Coprocessor) -> bool {
    matches!(state.drawing, Drawing::Block { .. } | Drawing::Fill { .. })
}

fn is_codes(state: &Coprocessor) -> bool {
    matches!(state.drawing, Drawing::Codes { .. })
}

/// Whether codes are drawn and no byte of the direction steps is a stop.
fn has_no_stop(state: &Coprocessor) -> bool {
    let bytes = state.registers.steps.to_le_bytes();
    is_codes(state) && !bytes.contains(&codes::STOP)
}

/// Whether codes are drawn and one of them is done.
fn is_past_a_code(state: &Coprocessor) -> bool {
    matches!(state.drawing, Drawing::Codes { code: 1.., .. })
}

/// Whether a code's first position is next, which code 00 would have too.
fn is_at_a_code(state: &Coprocessor) -> bool {
    matches!(state.drawing, Drawing::Codes { done: 0, .. })
}

/// The first position of a code.
fn codes_at(count: u8, code: u16) -> Drawing {
    let done = 0;
    Drawing::Codes { count, code, done }
}

/// The code that is drawn.
fn current(state: &Coprocessor) -> Code {
    let byte = match state.drawing {
        Drawing::Codes { count, code, .. } => codes::byte(state.registers.steps, count, code),
        _ => None,
    };
    Code::of(byte.unwrap_or(codes::STOP))
}

/// Makes a code of the starting write 00.
fn stop_at(state: &mut Coprocessor, count: u8, code: u32) {
    let byte = 4 - u32::from(count) + code;
    state.registers.steps &= !(0xFF << (8 * byte));
}

/// A counter of more positions or rows than there are.
fn after(random: &mut Random, last: u16) -> u16 {
    from(random, u32::from(last) + 1, 65_535) as u16
}
