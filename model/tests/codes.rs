//! Runs of codes: their positions, moves and end (01, The functions; docs/DECISIONS.md).

mod common;

use common::{Board, BITS_8, IDLE, STOPPED};
use model::Drawing;

#[test]
fn the_total_of_codes_is_the_sum_before_the_first_00() {
    for (codes, total) in [
        ([0x12, 0x20, 0x3F, 0x10], 3 + 1 + 16 + 1),
        ([0x12, 0x20, 0x00, 0x10], 3 + 1),
        ([0x12, 0x00, 0x3F, 0x00], 3),
        ([0x00, 0x20, 0x3F, 0x10], 0),
    ] {
        let mut board = Board::square(4);
        board.operations(0x0401_8000);
        board.codes(&codes);
        assert_eq!(board.coprocessor.total(), total);
        assert_eq!(u64::from(board.finish()), total);
    }
}

#[test]
fn codes_go_in_eight_directions() {
    let ends = [
        (6, 4),
        (6, 2),
        (4, 2),
        (2, 2),
        (2, 4),
        (2, 6),
        (4, 6),
        (6, 6),
    ];
    for (direction, end) in (0u8..).zip(ends) {
        // The octant does not touch codes.
        for octant in 0..8 {
            let mut board = Board::square(8);
            board.terms(-1, 2, -4);
            board.destination(4, 4);
            board.operations(0x0401_8000 | octant);
            board.codes(&[direction << 5 | 0x12]);
            assert_eq!(board.finish(), 3);
            assert_eq!(board.destination_at(), end);
            assert_eq!(board.coprocessor.registers.e, -1);
        }
    }
}

#[test]
fn read_codes_move_the_source_so_and_destination_x_by_1() {
    let mut board = Board::square(8);
    board.map(2, 0, 3, 3, BITS_8);
    board.source(0, 0);
    board.operations(0x2221_8000);
    // Up, then one to the left.
    board.codes(&[0x52, 0x91]);
    assert_eq!(board.finish(), 5);
    assert_eq!(board.source_at(), (2, 1));
    assert_eq!(board.destination_at(), (3, 0));
}

#[test]
fn the_next_code_starts_where_the_last_one_ended() {
    let mut board = Board::square(8);
    board.operations(0x0401_8000);
    board.codes(&[0x12, 0xD1]);
    assert_eq!(board.visited(), [(0, 0), (1, 0), (2, 0), (2, 0), (2, 1)]);
}

#[test]
fn code_i_of_count_c_is_byte_2c_plus_4_less_c_plus_i() {
    // Codes of 1, 2, 3 and 4 positions in bytes 2C to 2F.
    for (count, positions) in [(1, vec![4]), (2, vec![3, 4]), (4, vec![1, 2, 3, 4])] {
        let mut board = Board::square(8);
        board.operations(0x0401_8000);
        board.write(0x2C, 2, 0x1110);
        board.write(0x2E, 1, 0x12);
        board.write(0x30 - count, count, 0x1312_1110 >> (32 - 8 * count));
        for (code, positions) in (0..).zip(positions) {
            for done in 0..positions {
                let drawing = Drawing::Codes {
                    count: count as u8,
                    code,
                    done,
                };
                assert_eq!(board.coprocessor.drawing, drawing);
                board.run(1);
            }
        }
        assert_eq!(board.coprocessor.drawing, IDLE);
    }
}

#[test]
fn running_out_of_codes_is_no_stop_and_meeting_00_is_one() {
    let mut board = Board::square(8);
    board.operations(0x0401_8000);
    board.codes(&[0x11, 0x11]);
    board.finish();
    assert_eq!(board.coprocessor.drawing, IDLE);

    board.codes(&[0x11, 0x00]);
    assert_eq!(board.run(1), 1);
    assert!(board.coprocessor.drawing.is_unfinished());
    // The stop is part of the code's last position.
    assert_eq!(board.run(1), 1);
    assert_eq!(board.coprocessor.drawing, STOPPED);
}

#[test]
fn a_move_code_moves_and_never_writes() {
    for mode in [0x00, 0x10, 0x20] {
        let mut board = Board::square(8);
        board.operations(0x0401_8000 | mode);
        board.codes(&[0x05, 0xC1]);
        assert_eq!(board.finish(), 8);
        assert_eq!(board.memory, vec![0; 64]);
        assert_eq!(board.destination_at(), (5, 1));
    }
}

#[test]
fn first_and_last_null_hold_for_each_code() {
    // Two to the right, then two down, into a square of 3; the corner is drawn by both codes.
    let drawn = [
        (0x00, [9, 9, 9, 0, 0, 9, 0, 0, 9]),
        (0x10, [0, 9, 9, 0, 0, 9, 0, 0, 9]),
        (0x20, [9, 9, 9, 0, 0, 9, 0, 0, 0]),
    ];
    for (mode, expected) in drawn {
        let mut board = Board::square(3);
        board.colours(9, 0);
        board.operations(0x0401_8000 | mode);
        board.codes(&[0x12, 0xD2]);
        assert_eq!(board.finish(), 6);
        assert_eq!(board.memory, expected);
    }

    // With xor, the corner shows how often it was drawn.
    for (mode, corner) in [(0x00, 0), (0x10, 9), (0x20, 9)] {
        let mut board = Board::square(3);
        board.colours(9, 0);
        board.write(0x48, 1, 0x06);
        board.operations(0x0401_8000 | mode);
        board.codes(&[0x12, 0xD2]);
        board.finish();
        assert_eq!(board.pixel(1, 2, 0), corner);
    }
}
