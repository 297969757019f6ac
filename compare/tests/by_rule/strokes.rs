//! Drawing strokes, no position of which is asked whether it lies inside, with a mistake if asked.

use super::apart::put_at;
use super::{pass, Mistake};
use compare::stretches::bars::Bar;
use compare::stretches::rule::current_code;
use model::{moves, Coprocessor, Drawing};

/// What makes the function of a read form that of the write form.
const WRITE_FORM: u32 = 2 << 24;

/// Draws so many positions of a line or code; nothing where they lead out of the memory.
pub fn draw(
    state: &mut Coprocessor,
    memory: &mut [u8],
    length: u32,
    mistake: Option<Mistake>,
) -> Option<()> {
    let form = match mistake {
        Some(Mistake::Barred(Bar::ReadForm)) => WRITE_FORM,
        _ => 0,
    };
    state.registers.operations += form;
    for _ in 0..length {
        let registers = &state.registers;
        let layout = registers.map(registers.fields().destination).layout();
        let place = (
            registers.destination_x.into(),
            registers.destination_y.into(),
        );
        let ink = (registers.foreground_mix, registers.foreground_colour);
        put_at(registers, memory, layout, place, ink)?;
        step(state, mistake);
    }
    state.registers.operations -= form;
    Some(())
}

/// Passes to the next position.
fn step(state: &mut Coprocessor, mistake: Option<Mistake>) {
    let (direction, term, is_last) = match state.drawing {
        Drawing::Line { done, .. } => {
            let (direction, term) = moves::line_step(&state.registers);
            (direction, term, done == state.registers.dimension_1)
        }
        Drawing::Codes { done, .. } => match current_code(state) {
            Some(code) => (code.direction, 0, done == code.steps),
            None => return,
        },
        _ => return,
    };
    let e = state.registers.e + term;
    pass(state, 1);
    match mistake {
        Some(Mistake::LastStep) if is_last => {
            state.registers.destination_x += direction.0 as i16;
            state.registers.destination_y += direction.1 as i16;
        }
        Some(Mistake::EndlessE) if !is_last => state.registers.e = e,
        _ => {}
    }
}
