//! The rule of strokes: positions of a line or code from which a step leads to one inside, and its last one.

use crate::stretches::rule::{current_code, outside, Cut};
use model::{moves, Coprocessor, Drawing};

/// How many positions of the line or code in hand, of at most so many, are taken at once from one inside on, and what ends them.
pub fn stroke(state: &Coprocessor, allowance: u32) -> (u32, Cut) {
    let mut state = state.clone();
    for length in 0..allowance {
        if is_last(&state) {
            return (length + 1, Cut::End);
        }
        state.drawing = moves::advance(&mut state.registers, state.drawing, true);
        if let Some(edge) = outside(&state.registers) {
            return (length, edge);
        }
    }
    (allowance, Cut::Allowance)
}

/// Whether the next position is the last one of its line or code.
fn is_last(state: &Coprocessor) -> bool {
    match state.drawing {
        Drawing::Line { done, .. } => done == state.registers.dimension_1,
        Drawing::Codes { done, .. } => current_code(state).is_some_and(|code| code.steps == done),
        _ => true,
    }
}
