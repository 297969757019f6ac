//! Random states: idle, after a stop, and drawings of every function partly done, in memories of many sizes.

use crate::calls;
use crate::random::Random;
use crate::set_ups;
use model::codes::{self, Code};
use model::coprocessor::SIZE_LIMIT;
use model::image;
use model::{Coprocessor, Drawing};

/// A state above this size is not run but put at counters of its own.
const LARGEST_RUN: u32 = 4_096;

/// Any state.
pub fn any(random: &mut Random) -> Coprocessor {
    let (mut state, (offset, length, value)) = set_ups::set_up(random);
    if random.once_in(8) {
        for _ in 0..random.below(20) {
            let (offset, length, value) = calls::write(random);
            state.write(offset, length, value);
        }
    } else {
        state.write(offset, length, value);
    }
    go_on(random, &mut state);
    resize(random, &mut state);
    if !state.drawing.is_unfinished() && random.once_in(2) {
        state.drawing = Drawing::Nothing { stopped: true };
    }
    state
}

/// Whether the image is of state 3, a drawing that is inside.
pub fn is_inside(bytes: &[u8]) -> bool {
    bytes.get(image::STATE_AT) == Some(&image::DRAWING_INSIDE)
}

/// The indexes of the maps that the stored operations use: destination, then source, pattern and mask map where used.
pub fn used_maps(state: &Coprocessor) -> Vec<usize> {
    maps_by_role(state).into_iter().flatten().collect()
}

/// The indexes of the destination, source, pattern and mask map, where the stored operations use them.
pub fn maps_by_role(state: &Coprocessor) -> [Option<usize>; 4] {
    let operations = state.registers.fields();
    let roles = [
        (true, operations.destination),
        (operations.uses_source(), operations.source),
        (operations.uses_pattern(), operations.pattern),
        (operations.uses_mask(), 0),
    ];
    roles.map(|(is_used, map)| is_used.then_some(map as usize % 4))
}

/// Does some of the drawing's positions, or puts the drawing at any counters where a position remains.
fn go_on(random: &mut Random, state: &mut Coprocessor) {
    let registers = &state.registers;
    if state.size <= LARGEST_RUN && !random.once_in(3) {
        let allowance = random.below(state.left().min(300) as u32 + 1);
        let mut memory = vec![0; state.size as usize];
        state.run(&mut memory, allowance);
        return;
    }
    let bit = random.once_in(2);
    let mut upto = |last: u16| random.below(u32::from(last) + 1) as u16;
    state.drawing = match state.drawing {
        Drawing::Line { .. } => {
            let done = upto(registers.dimension_1);
            let may_look_back = done > 0 && registers.fields().draws_boundary();
            let rose = bit && may_look_back;
            Drawing::Line { done, rose }
        }
        Drawing::Fill { .. } => {
            let column = upto(registers.dimension_1);
            Drawing::Fill {
                column,
                row: upto(registers.dimension_2),
                inside: bit && column > 0,
            }
        }
        Drawing::Block { .. } => Drawing::Block {
            column: upto(registers.dimension_1),
            row: upto(registers.dimension_2),
        },
        Drawing::Codes { count, .. } => {
            let codes = codes::of_write(registers.steps, count);
            let drawn = codes.iter().take_while(|byte| **byte != codes::STOP);
            let code = upto(drawn.count() as u16 - 1);
            let done = upto(Code::of(codes[usize::from(code)]).steps);
            Drawing::Codes { count, code, done }
        }
        nothing => nothing,
    };
}

/// Gives the state just the size that its maps need, or a larger one.
fn resize(random: &mut Random, state: &mut Coprocessor) {
    let ends = used_maps(state)
        .into_iter()
        .map(|map| state.registers.maps[map].end());
    let least = match ends.max() {
        Some(end) if state.drawing.is_unfinished() => end as u32,
        _ => 1,
    };
    state.size = match random.below(24) {
        0..=7 => least,
        8 => least + random.below(SIZE_LIMIT - least + 1),
        9..=12 => SIZE_LIMIT.min(least * 17 + random.below(9_000)),
        _ => state.size,
    };
}
