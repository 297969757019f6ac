//! A drawing in every way: in one run, by runs of 1, by random ones, and cut at every place; all come to the same end.

use super::counts::Counts;
use crate::drawings::Board;
use crate::others::Others;
use crate::random::Random;
use model::codes::{self, Code};
use model::{image, Drawing};

/// The most positions of a drawing that is cut at every one of them.
const LONGEST_CUT: u32 = 48;

/// Draws in every way, and answers the positions.
pub fn all(
    random: &mut Random,
    begun: &Board,
    others: &Others,
    counts: &mut Counts,
) -> Result<u32, String> {
    let mut whole = begun.clone();
    counts.note_run(&whole.pair.plain, u32::MAX);
    let positions = whole.run(u32::MAX)?;
    if u64::from(positions) != begun.pair.plain.left() || whole.pair.plain.left() != 0 {
        return Err(format!("{positions} positions in one run"));
    }
    by_ones(begun.clone(), &whole)?;
    anywhere(random, begun.clone(), &whole, others, counts)?;
    if positions <= LONGEST_CUT {
        counts.cut_everywhere += 1;
        everywhere(random, begun, &whole, others, counts)?;
    }
    Ok(positions)
}

/// Puts a drawing at any counters where a position remains, by an image; its pointers stay.
pub fn put_elsewhere(
    random: &mut Random,
    board: &mut Board,
    counts: &mut Counts,
) -> Result<(), String> {
    let mut state = board.pair.plain.clone();
    let registers = &state.registers;
    let mut upto = |last: u16| random.below(u32::from(last) + 1) as u16;
    match &mut state.drawing {
        Drawing::Block { column, row } => {
            (*column, *row) = (upto(registers.dimension_1), upto(registers.dimension_2));
        }
        Drawing::Line { done, .. } => *done = upto(registers.dimension_1),
        Drawing::Codes { count, code, done } => {
            let codes = codes::of_write(registers.steps, *count);
            let drawn = codes.iter().take_while(|byte| **byte != codes::STOP);
            *code = upto(drawn.count() as u16 - 1);
            *done = upto(Code::of(codes[usize::from(*code)]).steps);
        }
        Drawing::Fill { .. } | Drawing::Nothing { .. } => return Ok(()),
    }
    counts.put_elsewhere += 1;
    let image = image::of(&state);
    match board.pair.load(&image, &mut board.memories)? {
        0 => Ok(()),
        refusal => Err(format!("other counters did not load: {refusal}")),
    }
}

fn by_ones(mut board: Board, whole: &Board) -> Result<(), String> {
    while board.pair.plain.left() > 0 {
        board.run(1)?;
    }
    whole.is_end_of(&board)
}

/// Runs by random allowances, most often carried to another coprocessor before each.
fn anywhere(
    random: &mut Random,
    mut board: Board,
    whole: &Board,
    others: &Others,
    counts: &mut Counts,
) -> Result<(), String> {
    let left = board.pair.plain.left() as u32;
    let most = random.pick(&[6, 24, left / 2]);
    while board.pair.plain.left() > 0 {
        if !random.once_in(3) {
            board.carry(random, others, &mut counts.carried)?;
        }
        let allowance = 1 + random.below(most);
        counts.note_run(&board.pair.plain, allowance);
        board.run(allowance)?;
    }
    whole.is_end_of(&board)
}

/// From each place to the end, after one run to that place and a move to another coprocessor.
fn everywhere(
    random: &mut Random,
    begun: &Board,
    whole: &Board,
    others: &Others,
    counts: &mut Counts,
) -> Result<(), String> {
    for place in 0..=begun.pair.plain.left() as u32 {
        let mut board = begun.clone();
        board.run(place)?;
        board.carry(random, others, &mut counts.carried)?;
        board.run(u32::MAX)?;
        whole.is_end_of(&board)?;
    }
    Ok(())
}
