//! Refusals 1 to 10, all that are left (docs/DECISIONS.md, 6); damaged records are in damaged_records.rs.
//!
//! The rules of start, load and 10 keep every pixel of a position inside the memory, so no number is needed for one beyond it;
//! that such a position fails loudly is tested beside the code, in src/reach.rs.

mod common;

use common::states::unfinished;
use common::{Board, BITS_1, BITS_8, IDLE};
use model::registers::LISTED;
use model::Coprocessor;

#[test]
fn refusal_1_length_alignment_and_offset() {
    let places = [
        (0x20, 0),
        (0x20, 3),
        (0x20, 5),
        (0x20, 8),
        (0x20, u32::MAX),
        (0x21, 2),
        (0x22, 4),
        (0x7F, 2),
        (0x7E, 4),
        (0x80, 1),
        (0x80, 2),
        (0x80, 4),
        (u32::MAX, 1),
        (u32::MAX - 3, 4),
    ];
    for (offset, length) in places {
        let mut board = Board::square(4);
        assert_eq!(board.refusal(offset, length, 0), 1, "{offset:X} {length}");
        assert_eq!(board.coprocessor.read(offset, length), (1, 0));
    }
}

#[test]
fn refusal_2_write_while_a_drawing_is_unfinished() {
    let mut board = unfinished();
    assert_eq!(board.refusal(0x58, 4, 0), 2);
    assert_eq!(board.refusal(0x2F, 1, 0), 2);
    assert_eq!(board.refusal(0x7F, 1, 5), 2);
    board.finish();
    board.write(0x58, 4, 0);
}

#[test]
fn refusal_3_every_byte_of_no_listed_register() {
    for offset in 0..0x80 {
        let is_listed = |byte| {
            LISTED
                .iter()
                .any(|(first, bytes, _)| (*first..first + bytes).contains(&byte))
        };
        for length in [1, 2, 4] {
            if offset % length != 0 || (offset..offset + length).all(is_listed) {
                continue;
            }
            let mut board = Board::fresh(1);
            assert_eq!(board.refusal(offset, length, 0), 3, "{offset:X} {length}");
            assert_eq!(board.coprocessor.read(offset, length), (3, 0));
        }
    }
}

#[test]
fn refusal_3_the_gaps_of_the_bank() {
    let gaps = [
        (0x00, 4),
        (0x11, 1),
        (0x12, 2),
        (0x13, 1),
        (0x1C, 2),
        (0x1D, 1),
        (0x1C, 4),
        (0x30, 1),
        (0x44, 4),
        (0x4A, 2),
        (0x4B, 1),
        (0x48, 4),
        (0x64, 4),
        (0x6B, 1),
    ];
    for (offset, length) in gaps {
        assert_eq!(Board::fresh(1).refusal(offset, length, 0), 3);
    }
}

#[test]
fn refusal_4_a_function_that_does_not_draw() {
    for function in [0, 1, 6, 7, 11, 12, 13, 14, 15] {
        let mut board = Board::square(4);
        assert_eq!(board.refusal(0x7C, 4, function << 24 | 0x1_8000), 4);
        assert_eq!(board.refusal(0x7E, 2, function << 8 | 1), 4);
        assert_eq!(board.refusal(0x7F, 1, function), 4);
    }
}

#[test]
fn refusal_5_each_field() {
    let mut fields: Vec<u32> = vec![
        // Background and foreground source 01 and 11.
        0x4801_8000,
        0xC801_8000,
        0x1801_8000,
        0x3801_8000,
        // Mask 11.
        0x0801_80C0,
        // A fill to the left, whether or not upwards.
        0x0A01_2004,
        0x0A01_2006,
    ];
    // A fill whose pattern is no map, among them those that other functions accept.
    fields.extend([0].into_iter().chain(4..16).map(|p| 0x0A11_0000 | p << 12));
    fields.extend([0].into_iter().chain(4..16).map(|d| 0x0800_8000 | d << 16));
    fields.extend(
        [0, 4, 5, 6, 7]
            .into_iter()
            .chain(10..16)
            .map(|p| 0x0801_0000 | p << 12),
    );
    for source in [0].into_iter().chain(4..16) {
        fields.extend([0x2801_8000, 0x8801_8000, 0x0801_9000].map(|f| f | source << 20));
    }
    for operations in fields {
        let mut board = Board::square(4);
        assert_eq!(board.refusal(0x7C, 4, operations), 5, "{operations:X}");
    }
}

#[test]
fn drawing_mode_11_and_function_10_are_no_longer_refused() {
    for operations in [0x0301_8030, 0x0501_8030, 0x0A01_2000, 0x0A01_2033] {
        let mut board = Board::square(4);
        board.operations(operations);
        assert!(board.coprocessor.drawing.is_unfinished());
    }
    for operations in [0x0201_8030, 0x0401_8030] {
        let mut board = Board::square(4);
        board.operations(operations);
        board.codes(&[0x10]);
        assert!(board.coprocessor.drawing.is_unfinished());
    }
}

#[test]
fn a_fill_is_refused_in_the_old_place_of_5() {
    let mut board = Board::new(16);
    board.map(1, 16, 1, 1, 7);
    board.write(0x48, 1, 0x16);
    for operations in [0x0A01_2004, 0x0A01_8000, 0x0A11_9000] {
        assert_eq!(board.refusal(0x7C, 4, operations), 5);
    }
    assert_eq!(board.refusal(0x7C, 4, 0x0A01_2000), 6);
    assert_eq!(unfinished().refusal(0x7C, 4, 0x0A01_2004), 2);
}

#[test]
fn refusal_6_either_mix_above_15() {
    for offset in [0x48, 0x49] {
        for mix in [0x16, 0x17, 0x80, 0xFF] {
            let mut board = Board::square(4);
            board.write(offset, 1, mix);
            assert_eq!(board.refusal(0x7C, 4, 0x0801_8000), 6);
        }
        let mut board = Board::square(4);
        board.write(offset, 1, 0x15);
        board.operations(0x0801_8000);
    }
}

#[test]
fn refusal_7_each_used_maps_format() {
    // Map, operations that use it so, formats accepted: pixel codes in either order (02, 101).
    let uses: [(u32, u32, &[u32]); 5] = [
        (1, 0x0801_8000, &[0, 1, 2, 3, 8, 9, 10, 11]),
        (2, 0x0821_9000, &[0, 1, 2, 3, 8, 9, 10, 11]),
        (2, 0x2821_8000, &[3, 11]),
        (2, 0x0801_2000, &[0, 8]),
        (0, 0x0801_8080, &[0, 8]),
    ];
    for (index, operations, accepted) in uses {
        for format in 0..16 {
            let mut board = Board::square(4);
            board.map(index, 0, 1, 1, format);
            if accepted.contains(&format) {
                board.operations(operations);
            } else {
                assert_eq!(
                    board.refusal(0x7C, 4, operations),
                    7,
                    "{operations:X} {format}"
                );
            }
        }
    }
}

#[test]
fn refusal_8_each_used_map() {
    for (index, operations, format) in [
        (1, 0x0801_8000, BITS_8),
        (2, 0x0821_9000, BITS_8),
        (2, 0x2821_8000, BITS_8),
        (2, 0x0801_2000, BITS_1),
        (0, 0x0801_8080, BITS_1),
    ] {
        let mut board = Board::square(4);
        board.map(index, 16, 1, 1, format);
        assert_eq!(board.refusal(0x7C, 4, operations), 8);
        board.write(0x14, 4, 15);
        board.operations(operations);
    }
}

#[test]
fn refusal_9_a_fresh_state_outside_the_limit() {
    let (smallest, refusal) = Coprocessor::fresh(1);
    assert_eq!(refusal, 0);
    for size in [0, 1_048_577, u32::MAX] {
        assert_eq!(Coprocessor::fresh(size), (smallest.clone(), 9));
    }
    let (largest, refusal) = Coprocessor::fresh(1_048_576);
    assert_eq!((largest.size, refusal), (1_048_576, 0));
    assert_eq!(largest.drawing, IDLE);
}

#[test]
fn refusal_9_a_run_lent_another_length() {
    for mut board in [unfinished(), Board::square(4)] {
        for length in [0, 15, 17] {
            let before = board.coprocessor.clone();
            let mut memory = vec![0; length];
            assert_eq!(board.coprocessor.run(&mut memory, 9), (9, 0));
            assert_eq!(board.coprocessor, before);
            assert_eq!(memory, vec![0; length]);
        }
    }
}

#[test]
fn refusal_10_a_buffer_of_another_length() {
    let mut board = unfinished();
    let image = board.image();
    for length in [0, 114, 116] {
        let mut buffer = vec![7; length];
        assert_eq!(board.coprocessor.save(&mut buffer), 10);
        assert_eq!(buffer, vec![7; length]);

        let before = board.coprocessor.clone();
        let mut longer = image.to_vec();
        longer.resize(length, 0);
        assert_eq!(board.coprocessor.load(&longer), 10);
        assert_eq!(board.coprocessor, before);
    }
}

#[test]
fn the_lowest_number_is_given() {
    // An unlisted byte in an unfinished drawing.
    assert_eq!(unfinished().refusal(0x00, 4, 0), 2);
    assert_eq!(unfinished().refusal(0x01, 4, 0), 1);
    assert_eq!(unfinished().refusal(0x7C, 4, 0), 2);

    // Function, destination field, mix, format and end are wrong; each line mends the lowest.
    let mut board = Board::new(16);
    board.map(1, 16, 1, 1, 7);
    board.write(0x48, 1, 0x16);
    assert_eq!(board.refusal(0x7C, 4, 0x0600_8000), 4);
    assert_eq!(board.refusal(0x7C, 4, 0x0800_8000), 5);
    assert_eq!(board.refusal(0x7C, 4, 0x0801_8000), 6);
    board.write(0x48, 1, 0x15);
    assert_eq!(board.refusal(0x7C, 4, 0x0801_8000), 7);
    board.map(1, 16, 1, 1, BITS_8);
    assert_eq!(board.refusal(0x7C, 4, 0x0801_8000), 8);
    board.map(1, 15, 1, 1, BITS_8);
    board.operations(0x0801_8000);
}

#[test]
fn an_accepted_call_answers_0() {
    let mut board = Board::square(4);
    assert_eq!(board.coprocessor.write(0x58, 4, 5), 0);
    assert_eq!(board.coprocessor.read(0x58, 4), (0, 5));
    assert_eq!(board.coprocessor.run(&mut board.memory, 5), (0, 0));
    let mut image = [0; 115];
    assert_eq!(board.coprocessor.save(&mut image), 0);
    assert_eq!(board.coprocessor.load(&image), 0);
}
