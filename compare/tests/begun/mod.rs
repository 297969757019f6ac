//! Drawings made by hand, just begun, and the pieces that the rule makes of them.

use compare::random_drawings::{started, RandomDrawing};
use compare::stretches::rule::{self, Piece};
use compare::writes::{self, Write, MIX_SOURCE};
use model::{moves, Coprocessor};

/// The maps drawn into and read from.
pub const TO: u32 = 1;
pub const FROM: u32 = 2;

/// The octant bit of negative X.
pub const BACK: u32 = 0b100;

/// A drawing begun by these writes, into a map of 20 by 4 pixels, and with another of that size behind it.
pub fn begun(format: u32, others: &[Write]) -> Coprocessor {
    let mut all = writes::map(TO, 0, (20, 4), format).to_vec();
    all.extend(writes::map(FROM, 100, (20, 4), format));
    all.extend([writes::mixes(MIX_SOURCE, MIX_SOURCE), writes::no_compare()]);
    all.push(writes::planes(u32::MAX));
    all.extend(others);
    let (state, _) = started(&RandomDrawing {
        memory: vec![0; 200],
        writes: all,
    });
    assert!(state.drawing.is_unfinished());
    state
}

/// All pieces of a run of so many positions.
pub fn pieces(state: &Coprocessor, allowance: u32) -> Vec<Piece> {
    let mut state = state.clone();
    let mut left = state.left().min(allowance.into()) as u32;
    let mut pieces = Vec::new();
    while left > 0 {
        let piece = rule::piece(&state, left);
        for _ in 0..piece.length() {
            state.drawing = moves::advance(&mut state.registers, state.drawing, true);
        }
        left -= piece.length();
        pieces.push(piece);
    }
    pieces
}
