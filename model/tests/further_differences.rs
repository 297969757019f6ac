//! The further differences between 01 and 003, or within 003 (docs/DIFFERENCES.md).

mod common;

use common::{Board, BITS_8, IDLE, STOPPED};
use model::registers::LISTED;

#[test]
fn e_k1_and_k2_have_four_bytes() {
    let mut board = Board::fresh(1);
    for offset in [0x20, 0x24, 0x28] {
        board.write(offset, 4, 0xFFFF_FFFC);
        assert_eq!(board.read(offset, 4), 0xFFFF_FFFC);
        assert_eq!(board.read(offset + 2, 2), 0xFFFF);
        board.write(offset + 2, 2, 0);
        assert_eq!(board.read(offset, 4), 0xFFFF_FFFC);
    }
}

#[test]
fn only_codes_in_the_starting_write_run() {
    let mut board = Board::square(16);
    board.destination(8, 8);
    board.operations(0x0401_8000);
    board.write(0x2C, 2, 0x1F1F);
    board.write(0x2E, 1, 0x1F);
    board.write(0x2F, 1, 0x12);
    let with_earlier_codes = 3 * 16 + 3;
    assert_ne!(board.coprocessor.total(), with_earlier_codes);
    assert_eq!(board.finish(), 3);
}

#[test]
fn pattern_codes_8_and_9_leave_the_pattern_pointers() {
    for pattern in [0x8000, 0x9000] {
        for function in [0x0300_0000, 0x0500_0000, 0x0800_0000, 0x0900_0000] {
            let mut board = Board::square(4);
            board.pattern(4_000, 4_001);
            board.dimensions(2, 2);
            board.operations(function | 0x0011_0000 | pattern);
            board.finish();
            assert_eq!(board.pattern_at(), (4_000, 4_001));
        }
    }
}

#[test]
fn code_00_has_no_position() {
    let mut board = Board::square(4);
    board.operations(0x0401_8000);
    board.write(0x2C, 4, 0x1111_0012);
    let with_one_for_the_stop = 4;
    assert_ne!(board.coprocessor.total(), with_one_for_the_stop);
    assert_eq!(board.finish(), 3);
    assert_eq!(board.coprocessor.drawing, STOPPED);
}

#[test]
fn an_unused_source_field_may_be_anything() {
    for field in 0..16 {
        let mut board = Board::square(4);
        board.operations(0x0501_8000 | field << 20);
        assert_eq!(board.finish(), 1);
    }
}

#[test]
fn a_mask_map_of_another_size_than_1_bit_is_refused_when_enabled() {
    for format in (1..8).chain(9..16) {
        let mut board = Board::square(4);
        board.map(0, 0, 1, 1, format);
        assert_eq!(board.refusal(0x7C, 4, 0x0801_8080), 7);
        board.operations(0x0801_8040);
    }
}

#[test]
fn every_listed_register_reads_back() {
    let mut board = Board::fresh(1);
    for (offset, bytes, _) in LISTED {
        if offset != 0x7C {
            board.write(offset, bytes, 0x0101_0101);
        }
    }
    board.write(0x7C, 4, 0x0401_8000);
    for (offset, bytes, _) in LISTED {
        let (refusal, value) = board.coprocessor.read(offset, bytes);
        assert_eq!(refusal, 0);
        assert_ne!(value, 0, "register {offset:X}");
    }
}

#[test]
fn save_changes_nothing() {
    let mut board = Board::square(4);
    board.dimensions(3, 3);
    board.operations(0x0801_8000);
    board.run(5);
    let before = board.clone();
    board.image();
    assert_eq!(board, before);
    assert_eq!(board.finish(), 11);
}

#[test]
fn octant_101_is_negative_x_with_y_major() {
    let mut board = Board::square(8);
    board.terms(-1, 0, 0);
    board.dimensions(2, 0);
    board.destination(5, 1);
    board.operations(0x0501_8005);
    let as_001_would = [(5, 1), (5, 2), (5, 3)];
    assert_eq!(board.visited(), as_001_would);

    // With E at 0 both axes step, and only 101 goes to the left.
    board.terms(0, 0, 0);
    board.destination(5, 1);
    board.operations(0x0501_8005);
    assert_eq!(board.visited(), [(5, 1), (4, 2), (3, 3)]);

    // A block with 101 starts at the top right, as with 100.
    board.dimensions(1, 1);
    board.destination(5, 1);
    board.operations(0x0801_8005);
    assert_eq!(board.visited(), [(5, 1), (4, 1), (5, 2), (4, 2)]);
}

#[test]
fn last_null_is_mode_10() {
    let mut board = Board::new(3);
    board.map(1, 0, 3, 1, BITS_8);
    board.terms(-1, 0, 0);
    board.dimensions(2, 0);
    board.operations(0x0501_8020);
    board.finish();
    assert_eq!(board.memory, [0xFF, 0xFF, 0]);

    // Mode 11 is the area boundary, which draws nothing of a horizontal line.
    board.memory.fill(0);
    board.destination(0, 0);
    board.operations(0x0501_8030);
    board.finish();
    assert_eq!(board.memory, [0, 0, 0]);
}

#[test]
fn the_height_is_at_1a() {
    let mut board = Board::fresh(1);
    board.write(0x20, 4, 0x1DF);
    assert_eq!(board.coprocessor.registers.maps[0].height, 0);
    board.write(0x1A, 2, 0x1DF);
    assert_eq!(board.coprocessor.registers.maps[0].height, 0x1DF);
}

#[test]
fn dimension_1_of_a_line_is_its_delta() {
    // 003:4499-4543: a line from (20, 15) to (80, 35), for which delta X is 60.
    for (dimension, end) in [(60, (80, 35)), (59, (79, 35))] {
        let mut board = Board::square(96);
        board.terms(-20, 40, -80);
        board.dimensions(dimension, 0);
        board.destination(20, 15);
        board.operations(0x0511_8000);
        assert_eq!(board.finish(), dimension + 1);
        assert_eq!(board.destination_at(), end);
        assert_eq!(board.coprocessor.drawing, IDLE);
    }
}
