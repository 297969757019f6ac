//! The rules of state 3, drawing and inside, each broken by itself.

use super::{of_bytes, rests, Rule};
use model::image;
use model::operations::AREA_BOUNDARY;
use model::{Coprocessor, Drawing};

/// The rules, each broken in the image of a state that is not 3, where nothing but the rule forbids it.
pub fn rules() -> Vec<Rule> {
    vec![
        forbidden("inside at column 0", |state| {
            matches!(state.drawing, Drawing::Fill { column: 0, .. })
        }),
        forbidden("look-back at the first position", |state| {
            is_boundary(state) && matches!(state.drawing, Drawing::Line { done: 0, .. })
        }),
        forbidden("look-back in another mode", |state| {
            !is_boundary(state) && matches!(state.drawing, Drawing::Line { done: 1.., .. })
        }),
        forbidden("inside for codes", |state| {
            matches!(state.drawing, Drawing::Codes { done: 1.., .. })
        }),
        forbidden("inside for a block", |state| {
            matches!(state.drawing, Drawing::Block { column: 1.., .. })
        }),
        forbidden("inside while idle", rests),
    ]
}

/// A rule that state 3 breaks.
fn forbidden(name: &str, fits: fn(&Coprocessor) -> bool) -> Rule {
    of_bytes(name, fits, |_, bytes| {
        bytes[image::STATE_AT] = image::DRAWING_INSIDE;
    })
}

fn is_boundary(state: &Coprocessor) -> bool {
    state.registers.fields().drawing_mode == AREA_BOUNDARY
}
