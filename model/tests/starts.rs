//! Which writes start a drawing, what the start rules look at, and what a start does (01, Registers; docs/DECISIONS.md).

mod common;

use common::{line_at, Board, BITS_1, BITS_4, BITS_8, FILL_BEGUN, IDLE, STOPPED};
use model::Drawing;

/// Writes the pixel operations with a last write of so many bytes, the lower bytes before.
fn write_operations(board: &mut Board, value: u32, last_length: u32) {
    for place in 0..4 - last_length {
        board.write(0x7C + place, 1, value >> (8 * place));
    }
    assert!(!board.coprocessor.drawing.is_unfinished());
    let first = 4 - last_length;
    board.write(0x7C + first, last_length, value >> (8 * first));
}

#[test]
fn every_write_covering_7f_starts_lines_blocks_and_fills() {
    let starts = [
        (0x0301_8000, line_at(0)),
        (0x0501_8000, line_at(0)),
        (0x0801_8000, Drawing::Block { column: 0, row: 0 }),
        (0x0901_8000, Drawing::Block { column: 0, row: 0 }),
        (0x0A01_2000, FILL_BEGUN),
    ];
    for (operations, drawing) in starts {
        for length in [1, 2, 4] {
            let mut board = Board::square(4);
            write_operations(&mut board, operations, length);
            assert_eq!(board.coprocessor.drawing, drawing);
        }
    }
}

#[test]
fn writes_to_the_lower_bytes_of_the_operations_only_store() {
    let mut board = Board::square(4);
    board.operations(0x0501_8000);
    board.finish();
    board.write(0x7C, 2, 0x1234);
    board.write(0x7E, 1, 0x56);
    assert_eq!(board.coprocessor.drawing, IDLE);
    assert_eq!(board.read(0x7C, 4), 0x0556_1234);
}

#[test]
fn a_7f_write_of_draw_and_step_only_stores() {
    for function in [2, 4] {
        for length in [1, 2, 4] {
            let mut board = Board::square(4);
            board.source(4_000, 4_001);
            board.pattern(4_002, 4_003);
            board.operations(0x0401_8000);
            board.codes(&[0x00]);
            assert_eq!(board.coprocessor.drawing, STOPPED);
            // Both mixes and every field but the function break the start rules.
            board.write(0x48, 2, 0xFFFF);
            write_operations(&mut board, 0xF0FF_FFFF | function << 24, length);
            assert_eq!(board.coprocessor.drawing, STOPPED);
            assert_eq!(board.source_at(), (4_000, 4_001));
            assert_eq!(board.pattern_at(), (4_002, 4_003));
        }
    }
}

#[test]
fn a_7f_write_of_draw_and_step_leaves_used_pointers() {
    let mut board = Board::square(4);
    board.source(4_000, 4_001);
    board.operations(0x2411_8000);
    assert_eq!(board.source_at(), (4_000, 4_001));
    board.codes(&[0x10]);
    assert_eq!(board.source_at(), (0, 1));
}

#[test]
fn every_write_covering_2f_starts_stored_draw_and_step() {
    for function in [2, 4] {
        for count in [1, 2, 4] {
            let mut board = Board::square(4);
            board.operations(function << 24 | 0x1_8000);
            board.codes(&[0x10, 0x11, 0x12, 0x13][..count]);
            let drawing = Drawing::Codes {
                count: count as u8,
                code: 0,
                done: 0,
            };
            assert_eq!(board.coprocessor.drawing, drawing);
        }
    }
}

#[test]
fn writes_to_the_lower_bytes_of_the_steps_only_store() {
    let mut board = Board::square(4);
    board.operations(0x0401_8000);
    board.write(0x2C, 2, 0x1110);
    board.write(0x2E, 1, 0x12);
    assert_eq!(board.coprocessor.drawing, IDLE);
    assert_eq!(board.read(0x2C, 4), 0x0012_1110);
}

#[test]
fn a_2f_write_only_stores_while_another_function_is_stored() {
    let mut board = Board::fresh(1);
    board.write(0x2C, 4, 0x1111_1111);
    assert_eq!(board.coprocessor.drawing, IDLE);

    let mut board = Board::square(4);
    board.operations(0x0501_8000);
    board.finish();
    board.write(0x48, 2, 0xFFFF);
    board.write(0x2F, 1, 0x22);
    assert_eq!(board.coprocessor.drawing, IDLE);
    assert_eq!(board.read(0x2C, 4), 0x2200_0000);
}

#[test]
fn the_rules_look_at_the_registers_after_the_write() {
    let mut board = Board::square(4);
    board.write(0x7E, 1, 0x04);
    assert_eq!(board.refusal(0x7F, 1, 0x05), 5);
    board.operations(0x0501_8000);
}

#[test]
fn the_start_rules_hold_for_a_first_code_00() {
    let mut board = Board::square(4);
    board.operations(0x0401_8000);
    board.write(0x48, 1, 0x16);
    assert_eq!(board.refusal(0x2F, 1, 0x00), 6);
}

#[test]
fn a_first_code_00_ends_at_once_and_is_flagged() {
    let mut board = Board::square(4);
    board.source(4_000, 4_001);
    board.pattern(4_002, 4_003);
    board.operations(0x2411_8000);
    board.write(0x2C, 4, 0x1111_1100);
    assert_eq!(board.coprocessor.drawing, STOPPED);
    assert_eq!(board.source_at(), (0, 1));
    assert_eq!(board.pattern_at(), (4_002, 4_003));
    assert_eq!((board.coprocessor.total(), board.run(9)), (0, 0));
    assert_eq!(board.memory, vec![0; 16]);
}

#[test]
fn the_stop_flag_lasts_until_the_next_accepted_start_or_load() {
    let mut board = Board::square(4);
    let fresh = board.image();
    board.operations(0x0401_8000);
    board.codes(&[0x00]);
    board.write(0x58, 4, 1);
    board.read(0x58, 4);
    board.run(9);
    board.image();
    assert_eq!(board.refusal(0x7C, 4, 0x0500_8000), 5);
    assert_eq!(board.coprocessor.drawing, STOPPED);

    let mut started = board.clone();
    started.operations(0x0501_8000);
    started.finish();
    assert_eq!(started.coprocessor.drawing, IDLE);

    assert_eq!(board.coprocessor.load(&fresh), 0);
    assert_eq!(board.coprocessor.drawing, IDLE);
}

#[test]
fn used_pointers_become_remainders_and_unused_ones_stay() {
    // Pixel operations, whether the source is used, whether the pattern is.
    let uses = [
        (0x0811_8000, false, false),
        (0x2821_8000, true, false),
        (0x8821_8000, true, false),
        (0x0821_9000, true, false),
        (0x0821_3000, false, true),
        (0x2821_3000, true, true),
    ];
    for (operations, uses_source, uses_pattern) in uses {
        let mut board = Board::square(8);
        board.map(2, 0, 3, 5, BITS_8);
        board.map(3, 0, 4, 7, BITS_1);
        board.source(100, 101);
        board.pattern(102, 103);
        board.destination(-100, 5_000);
        board.operations(operations);
        let source = if uses_source { (1, 1) } else { (100, 101) };
        let pattern = if uses_pattern { (2, 5) } else { (102, 103) };
        assert_eq!(board.source_at(), source, "{operations:X}");
        assert_eq!(board.pattern_at(), pattern, "{operations:X}");
        assert_eq!(board.destination_at(), (-100, 5_000));
    }
}

#[test]
fn the_source_is_used_even_when_never_picked() {
    let mut board = Board::square(8);
    board.map(2, 0, 3, 5, BITS_4);
    board.source(100, 101);
    // Background source 10 with the pattern always 1.
    assert_eq!(board.refusal(0x7C, 4, 0x8821_8000), 7);
    board.map(2, 50, 3, 5, BITS_8);
    assert_eq!(board.refusal(0x7C, 4, 0x8821_8000), 8);
    board.map(2, 49, 3, 5, BITS_8);
    board.dimensions(1, 0);
    board.operations(0x8821_8000);
    assert_eq!(board.source_at(), (1, 1));
    board.run(1);
    assert_eq!(board.source_at(), (2, 1));
}

#[test]
fn a_source_that_is_only_the_pattern_may_have_another_size() {
    let mut board = Board::new(8);
    board.map(1, 0, 4, 1, BITS_8);
    board.map(2, 4, 4, 1, BITS_4);
    board.memory[4..6].copy_from_slice(&[0x05, 0x80]);
    board.colours(1, 2);
    board.dimensions(3, 0);
    board.operations(0x0821_9000);
    board.finish();
    assert_eq!(board.row(1, 0), [1, 2, 2, 1]);
    assert_eq!(board.refusal(0x7C, 4, 0x2821_9000), 7);
}

#[test]
fn rules_5_and_6_hold_where_the_field_cannot_matter() {
    let mut board = Board::square(4);
    // Background source 01 and background mix 16 hex, with the pattern always 1.
    assert_eq!(board.refusal(0x7C, 4, 0x4801_8000), 5);
    board.write(0x49, 1, 0x16);
    assert_eq!(board.refusal(0x7C, 4, 0x0801_8000), 6);
}

#[test]
fn mode_01_does_not_look_at_the_mask_maps_format_and_end() {
    let mut board = Board::square(4);
    board.map(0, 0xFFFF_FFFF, 2, 2, 0xF);
    assert_eq!(board.refusal(0x7C, 4, 0x0801_8080), 7);
    board.write(0x1C, 1, BITS_1);
    assert_eq!(board.refusal(0x7C, 4, 0x0801_8080), 8);
    board.write(0x1C, 1, 0xF);
    board.dimensions(3, 3);
    board.operations(0x0801_8040);
    board.finish();
    assert_eq!(board.row(1, 1), [0xFF, 0xFF, 0, 0]);
    assert_eq!(board.row(1, 2), [0, 0, 0, 0]);
}

#[test]
fn maps_that_are_not_used_are_not_looked_at() {
    let mut board = Board::square(4);
    for index in [0, 2, 3] {
        board.map(index, 0xFFFF_FFFF, 4_096, 4_096, 0xF);
    }
    board.operations(0x0831_8000);
}

#[test]
fn a_used_map_may_end_exactly_at_the_end() {
    // 3 by 3 pixels need 2, 3, 5 and 9 bytes.
    for (format, bytes) in [(0, 2), (1, 3), (2, 5), (3, 9)] {
        let mut board = Board::new(20);
        board.map(1, 20 - bytes + 1, 3, 3, format);
        assert_eq!(board.refusal(0x7C, 4, 0x0801_8000), 8);
        board.write(0x14, 4, 20 - bytes);
        board.operations(0x0801_8000);
    }
}

#[test]
fn the_end_of_a_map_does_not_go_round() {
    let mut board = Board::new(1);
    board.map(1, 0xFFFF_FFFF, 1, 1, BITS_8);
    assert_eq!(board.refusal(0x7C, 4, 0x0801_8000), 8);
    board.map(1, 0, 4_096, 4_096, BITS_8);
    assert_eq!(board.refusal(0x7C, 4, 0x0801_8000), 8);
}
