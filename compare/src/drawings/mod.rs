//! Whole drawings: in one run, position by position, cut anywhere, and cut at every position and carried to another coprocessor.
//!
//! A drawing that is cut anywhere also lives through what a fitter may do between two runs.

mod areas;
mod board;
mod counts;

pub use board::Board;
pub use counts::Loads;

use crate::between::Between;
use crate::others::Others;
use crate::panics;
use crate::progress::Steps;
use crate::random::Random;
use crate::random_drawings::{self, RandomDrawing, FUNCTIONS};
use counts::Counts;

/// The most positions of a drawing that is cut at every one of them.
const LONGEST_CUT: u32 = 64;

/// The drawings from which on all that may be done between two runs, every kind of area and every mix of orders must have been met.
const MANY: u64 = 1_000;

/// One in so many drawings uses four different maps, whose orders are mixed in all ways in turn.
const OF_FOUR_MAPS: u64 = 4;
const MIXES: u64 = 16;

/// Compares a drawing in each step, of all functions in turn; what is done between their runs has random numbers of its own.
pub fn compare(
    random: &mut Random,
    random_between: Random,
    steps: Steps,
    others: &Others,
) -> Result<Counts, String> {
    let count = steps.asked;
    let mut counts = Counts::default();
    let mut between = Between::new(random_between, others);
    for (number, kind) in steps.zip((0..FUNCTIONS.len()).cycle()) {
        let drawing = drawing(random, FUNCTIONS[kind], number);
        let whole = || one(random, &drawing, others, &mut between, &mut counts);
        let positions =
            panics::caught(whole).map_err(|difference| format!("{difference}\nin {drawing:?}"))?;
        counts.drawings[kind] += 1;
        counts.positions += u64::from(positions);
        counts.stopped_at_once += u64::from(positions == 0);
    }
    counts.between = between.counts;
    match counts.never_met().filter(|_| count >= MANY) {
        Some(never) => Err(never),
        None => Ok(counts),
    }
}

/// The drawing of a number.
fn drawing(random: &mut Random, function: u32, number: u64) -> RandomDrawing {
    match number % OF_FOUR_MAPS {
        0 => {
            let mix = number / OF_FOUR_MAPS % MIXES;
            random_drawings::drawing_of_four_maps(random, function, mix as u32)
        }
        _ => random_drawings::drawing(random, function),
    }
}

/// Compares one drawing in every way, and answers its positions.
fn one(
    random: &mut Random,
    drawing: &RandomDrawing,
    others: &Others,
    between: &mut Between,
    counts: &mut Counts,
) -> Result<u32, String> {
    let begun = Board::begin(drawing)?;
    counts.note_start(&begun.pair.plain);
    let mut whole = begun.clone();
    let positions = whole.run(u32::MAX)?;
    if u64::from(positions) != begun.pair.plain.left() || whole.pair.plain.left() != 0 {
        return Err(format!("{positions} positions in one run"));
    }
    let mut single = begun.clone();
    while single.pair.plain.left() > 0 {
        counts
            .areas
            .note_position(&single.pair.plain, &single.memories.plain);
        single.run(1)?;
    }
    whole.is_end_of(&single)?;
    let carried = &mut counts.carried;
    cut_anywhere(random, begun.clone(), &whole, others, between, carried)?;
    if positions <= LONGEST_CUT {
        cut_everywhere(random, begun, &whole, others, &mut counts.cuts)?;
        counts.cut_everywhere += 1;
    }
    counts.changed += u64::from(whole.memories.plain != drawing.memory);
    Ok(positions)
}

/// Runs by random allowances, with something done before each; now and then the drawing is carried on.
fn cut_anywhere(
    random: &mut Random,
    mut board: Board,
    whole: &Board,
    others: &Others,
    between: &mut Between,
    loads: &mut Loads,
) -> Result<(), String> {
    while board.pair.plain.left() > 0 {
        between.act(&mut board.pair, &mut board.memories)?;
        board.run(1 + random.below(7))?;
        if random.once_in(6) {
            board.carry(random, others, loads)?;
        }
    }
    whole.is_end_of(&board)
}

/// Carries the drawing on before its first position and after every one; from each cut it also runs to the whole's end at once.
fn cut_everywhere(
    random: &mut Random,
    mut board: Board,
    whole: &Board,
    others: &Others,
    loads: &mut Loads,
) -> Result<(), String> {
    loop {
        board.carry(random, others, loads)?;
        let mut rest = board.clone();
        rest.run(u32::MAX)?;
        whole.is_end_of(&rest)?;
        if board.pair.plain.left() == 0 {
            return Ok(());
        }
        board.run(1)?;
    }
}
