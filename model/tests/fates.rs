//! What becomes of a position: the first that is true of moved, nulled, and what 01 lists (01, One position; 02, 113).

mod common;

use common::{Board, BITS_1, BITS_8};
use model::fates::{fate, Fate};

/// What becomes of the position at the counters.
fn fate_of(board: &Board) -> Fate {
    let coprocessor = &board.coprocessor;
    fate(&coprocessor.registers, &coprocessor.drawing, &board.memory)
}

/// What becomes of each position of a run to the end.
fn fates(board: &mut Board) -> Vec<Fate> {
    let mut fates = Vec::new();
    while board.coprocessor.drawing.is_unfinished() {
        let before = board.memory.clone();
        let fate = fate_of(board);
        board.run(1);
        assert_eq!(fate == Fate::Written, board.memory != before);
        fates.push(fate);
    }
    fates
}

#[test]
fn every_fate_of_a_block() {
    // A mask of three pixels, 1 1 0, over columns 1 to 3 of a row of five; column 2 is 9, which the condition keeps.
    let mut board = Board::new(6);
    board.map(1, 0, 5, 1, BITS_8);
    board.map(0, 5, 3, 1, BITS_1);
    board.memory[2] = 9;
    board.memory[5] = 0b011;
    board.mask_origin(1, 0);
    board.write(0x4A, 1, 2);
    board.write(0x4C, 4, 9);
    board.destination(-1, 0);
    board.dimensions(6, 0);
    board.operations(0x0801_8080);
    assert_eq!(
        fates(&mut board),
        [
            Fate::OutsideMap,
            Fate::OutsideMask,
            Fate::Written,
            Fate::Compared,
            Fate::OnZeroMask,
            Fate::OutsideMask,
            Fate::OutsideMap,
        ]
    );
}

#[test]
fn a_position_that_the_boundary_keeps_back_is_nulled() {
    // Y steps before positions 1 and 3.
    for (octant, expected) in [
        (0b000, [true, false, true, false]),
        (0b010, [false, true, false, true]),
    ] {
        let mut board = Board::square(8);
        board.terms(0, 2, -2);
        board.dimensions(3, 0);
        board.destination(4, 4);
        board.operations(0x0501_8030 | octant);
        let expected = expected.map(|is_drawn| match is_drawn {
            true => Fate::Written,
            false => Fate::Nulled,
        });
        assert_eq!(fates(&mut board), expected);
    }
}

#[test]
fn moved_comes_before_nulled_and_nulled_before_outside() {
    // A move code and a drawing code, both level and above the map: first-null and the boundary keep nothing of the first.
    for (mode, second) in [
        (0x00, [Fate::OutsideMap, Fate::OutsideMap]),
        (0x10, [Fate::Nulled, Fate::OutsideMap]),
        (0x20, [Fate::OutsideMap, Fate::Nulled]),
        (0x30, [Fate::Nulled, Fate::Nulled]),
    ] {
        let mut board = Board::square(4);
        board.destination(0, -1);
        board.operations(0x0401_8000 | mode);
        board.codes(&[0x01, 0x11]);
        let expected = [Fate::Moved, Fate::Moved, second[0], second[1]];
        assert_eq!(fates(&mut board), expected);
    }
}

#[test]
fn left_of_the_map_a_boundary_is_written_and_other_modes_are_outside() {
    for (mode, expected) in [
        (0x00, [Fate::OutsideMap, Fate::OutsideMap]),
        (0x30, [Fate::Written, Fate::Nulled]),
    ] {
        let mut board = Board::square(4);
        board.destination(-3, 1);
        board.operations(0x0401_8000 | mode);
        board.codes(&[0xD1]);
        assert_eq!(fates(&mut board), expected);
    }
}
