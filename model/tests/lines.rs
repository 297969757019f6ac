//! Lines: their positions, moves and end (01, The functions; docs/DECISIONS.md).

mod common;

use common::{line_at, Board, BITS_8, IDLE};

#[test]
fn the_total_of_a_line_is_dimension_1_and_1() {
    let mut board = Board::square(4);
    assert_eq!(
        (board.coprocessor.total(), board.coprocessor.left()),
        (0, 0)
    );
    board.dimensions(9, 2);
    board.operations(0x0501_8000);
    assert_eq!(
        (board.coprocessor.total(), board.coprocessor.left()),
        (10, 10)
    );
    assert_eq!(board.run(4), 4);
    assert_eq!(board.coprocessor.drawing, line_at(4));
    assert_eq!(
        (board.coprocessor.total(), board.coprocessor.left()),
        (10, 6)
    );
    assert_eq!(board.finish(), 6);
    assert_eq!(
        (board.coprocessor.total(), board.coprocessor.left()),
        (0, 0)
    );
}

#[test]
fn an_idle_run_and_an_allowance_of_0_do_nothing() {
    let mut board = Board::square(4);
    assert_eq!(board.run(9), 0);
    board.dimensions(3, 0);
    board.operations(0x0501_8000);
    let before = board.clone();
    assert_eq!(board.run(0), 0);
    assert_eq!(board, before);
}

#[test]
fn a_drawing_is_idle_as_soon_as_its_last_position_is_done() {
    let mut board = Board::square(4);
    board.dimensions(3, 0);
    board.operations(0x0501_8000);
    assert_eq!(board.run(4), 4);
    assert_eq!(board.coprocessor.drawing, IDLE);
}

#[test]
fn lines_in_all_octants() {
    // E 0, K1 2, K2 -2: both axes, then the major one, and so on.
    let lines = [
        [(6, 4), (7, 5), (8, 5), (9, 6)],
        [(6, 4), (7, 5), (7, 6), (8, 7)],
        [(6, 4), (7, 3), (8, 3), (9, 2)],
        [(6, 4), (7, 3), (7, 2), (8, 1)],
        [(6, 4), (5, 5), (4, 5), (3, 6)],
        [(6, 4), (5, 5), (5, 6), (4, 7)],
        [(6, 4), (5, 3), (4, 3), (3, 2)],
        [(6, 4), (5, 3), (5, 2), (4, 1)],
    ];
    for (octant, line) in (0..).zip(lines) {
        let mut board = Board::square(16);
        board.terms(0, 2, -2);
        board.dimensions(3, 0);
        board.destination(6, 4);
        board.operations(0x0501_8000 | octant);
        assert_eq!(board.visited(), line);
        assert_eq!(board.destination_at(), line[3]);
    }
}

#[test]
fn e_is_reduced_as_in_a_write() {
    let mut board = Board::square(4);
    board.terms(8_000, 0, 8_000);
    board.dimensions(1, 0);
    board.operations(0x0501_8000);
    board.finish();
    assert_eq!(board.coprocessor.registers.e, 16_000 - 16_384);

    board.terms(-8_000, -8_000, 0);
    board.operations(0x0501_8000);
    board.finish();
    assert_eq!(board.coprocessor.registers.e, -16_000 + 16_384);
}

#[test]
fn no_step_follows_a_lines_last_position() {
    let mut board = Board::square(4);
    board.terms(3, 1, 1);
    board.source(1, 1);
    board.operations(0x2511_8000);
    board.finish();
    assert_eq!(board.destination_at(), (0, 0));
    assert_eq!(board.source_at(), (1, 1));
    assert_eq!(board.coprocessor.registers.e, 3);
}

#[test]
fn a_write_line_moves_the_destination_so_and_source_x_by_1() {
    let mut board = Board::square(8);
    board.map(2, 0, 3, 3, BITS_8);
    board.terms(0, 0, 0);
    board.dimensions(4, 0);
    board.source(1, 2);
    board.destination(7, 7);
    board.operations(0x2521_8006);
    board.finish();
    assert_eq!(board.destination_at(), (3, 3));
    assert_eq!(board.source_at(), (2, 2));
}

#[test]
fn a_read_line_moves_the_source_so_and_destination_x_by_1() {
    let mut board = Board::square(8);
    board.map(2, 0, 3, 4, BITS_8);
    board.terms(0, 0, 0);
    board.dimensions(4, 0);
    board.source(1, 2);
    board.destination(7, 7);
    board.operations(0x2321_8006);
    board.finish();
    assert_eq!(board.destination_at(), (11, 7));
    // X 1 0 2 1 0, Y 2 1 0 3 2.
    assert_eq!(board.source_at(), (0, 2));
}

#[test]
fn a_read_form_with_the_source_unused_moves_e_and_destination_x() {
    let mut board = Board::square(8);
    board.terms(-1, 2, -4);
    board.dimensions(1, 0);
    board.source(1_000, 1_001);
    board.operations(0x0311_8000);
    board.finish();
    assert_eq!(board.coprocessor.registers.e, 1);
    assert_eq!(board.destination_at(), (1, 0));
    assert_eq!(board.source_at(), (1_000, 1_001));

    board.destination(0, 0);
    board.operations(0x0211_8000);
    board.codes(&[0x72]);
    board.finish();
    assert_eq!(board.destination_at(), (2, 0));
    assert_eq!(board.source_at(), (1_000, 1_001));
}

#[test]
fn first_and_last_null_hold_for_each_line() {
    for (mode, row) in [(0x00, [9, 9, 9]), (0x10, [0, 9, 9]), (0x20, [9, 9, 0])] {
        for function in [0x0300_0000, 0x0500_0000] {
            let mut board = Board::new(3);
            board.map(1, 0, 3, 1, BITS_8);
            board.terms(-1, 0, 0);
            board.colours(9, 0);
            board.dimensions(2, 0);
            board.operations(function | 0x1_8000 | mode);
            assert_eq!(board.finish(), 3);
            assert_eq!(board.row(1, 0), row);
        }
    }
}

#[test]
fn a_one_position_line_or_code_is_nulled_both_ways() {
    for (mode, written) in [(0x00, true), (0x10, false), (0x20, false)] {
        let mut board = Board::square(2);
        board.operations(0x0501_8000 | mode);
        assert_eq!(board.finish(), 1);
        assert_eq!(board.memory[0] != 0, written);

        let mut board = Board::square(2);
        board.operations(0x0401_8000 | mode);
        board.codes(&[0x10]);
        assert_eq!(board.finish(), 1);
        assert_eq!(board.memory[0] != 0, written);
    }
}

#[test]
fn destination_pointers_go_from_6143_to_minus_2048_and_back() {
    let mut board = Board::square(4);
    board.terms(0, 0, 0);
    board.dimensions(1, 0);
    board.destination(6_143, -2_048);
    board.operations(0x0501_8002);
    board.finish();
    assert_eq!(board.destination_at(), (-2_048, 6_143));
    board.operations(0x0501_8004);
    board.finish();
    assert_eq!(board.destination_at(), (6_143, -2_048));
}
