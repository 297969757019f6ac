//! Where 003 overrules 01 (docs/DIFFERENCES.md, D1 to D4): each test names what the other reading would give.

mod common;

use common::{Board, BITS_1, BITS_8};
use model::mixes::{holds, mix};

#[test]
fn d1_a_masked_bit_is_excluded_from_the_comparison() {
    const GREATER: u32 = 1;
    let (planes, destination, value) = (0x0F, 0xF3, 0x05);
    let over_the_whole_pixel = destination > value;
    assert!(over_the_whole_pixel);
    assert!(!holds(GREATER, 8, planes, destination, value));

    let mut board = Board::new(1);
    board.map(1, 0, 1, 1, BITS_8);
    board.memory[0] = destination as u8;
    board.write(0x4A, 1, GREATER);
    board.write(0x4C, 4, value);
    board.write(0x50, 4, planes);
    board.colours(0x0A, 0);
    board.operations(0x0801_8000);
    board.finish();
    let kept_by_the_whole_pixel = 0xF3;
    assert_ne!(board.memory[0], kept_by_the_whole_pixel);
    assert_eq!(board.memory[0], 0xFA);
}

#[test]
fn d1_bits_outside_the_mask_may_differ_in_equal_pixels() {
    const EQUAL: u32 = 2;
    let (planes, destination, value) = (0xF0, 0x5C, 0x53);
    let over_the_whole_pixel = destination == value;
    assert!(!over_the_whole_pixel);
    assert!(holds(EQUAL, 8, planes, destination, value));
}

/// A mix worked on the whole pixel, of which the enabled bits are then taken.
fn over_the_whole_pixel(code: u32, planes: u32, s: u32, d: u32) -> u32 {
    mix(code, 8, 0xFF, s, d) & planes | d & !planes
}

/// A mix worked on pixels whose masked bits are zeroed.
fn over_zeroed_bits(code: u32, planes: u32, s: u32, d: u32) -> u32 {
    mix(code, 8, 0xFF, s & planes, d & planes) & planes | d & !planes
}

#[test]
fn d2_masked_bits_are_excluded_from_the_arithmetic() {
    // Mix, plane mask, S, D, then the result by gathered bits, by the whole pixel and by zeroed bits.
    let table = [
        (0x10, 0x0F, 0x12, 0x21, 0x22, 0x21, 0x22),
        (0x11, 0x0F, 0x12, 0x21, 0x21, 0x22, 0x21),
        (0x12, 0x0F, 0x19, 0x19, 0x1F, 0x12, 0x12),
        (0x12, 0x11, 0x01, 0x01, 0x10, 0x00, 0x00),
        (0x13, 0xF0, 0x1F, 0x20, 0x10, 0x00, 0x10),
        (0x14, 0xF0, 0x20, 0x1F, 0x1F, 0x0F, 0x1F),
        (0x15, 0x55, 0x55, 0x01, 0x40, 0x01, 0x01),
    ];
    for (code, planes, s, d, gathered, whole, zeroed) in table {
        assert_eq!(mix(code, 8, planes, s, d), gathered, "mix {code:X}");
        assert_eq!(over_the_whole_pixel(code, planes, s, d), whole);
        assert_eq!(over_zeroed_bits(code, planes, s, d), zeroed);
    }
}

#[test]
fn d2_the_arithmetic_of_a_drawing_is_on_gathered_bits() {
    let mut board = Board::new(1);
    board.map(1, 0, 1, 1, BITS_8);
    board.memory[0] = 0x19;
    board.write(0x48, 1, 0x12);
    board.write(0x50, 4, 0x0F);
    board.colours(0x19, 0);
    board.operations(0x0801_8000);
    board.finish();
    let by_zeroed_bits = 0x12;
    assert_ne!(board.memory[0], by_zeroed_bits);
    assert_eq!(board.memory[0], 0x1F);
}

/// Map A a row of 8 bytes; map B a 1-bit pattern of 4 by 4 at byte 8, with its diagonal set; colours 1 and 2.
fn board_with_pattern() -> Board {
    let mut board = Board::new(10);
    board.map(1, 0, 8, 1, BITS_8);
    board.map(2, 8, 4, 4, BITS_1);
    board.memory[8..10].copy_from_slice(&[0b0010_0001, 0b1000_0100]);
    board.colours(1, 2);
    board
}

#[test]
fn d3_in_a_read_line_the_pattern_moves_as_the_source() {
    let mut board = board_with_pattern();
    board.pattern(1, 0);
    board.dimensions(3, 0);
    // E below 0 and K1 0: only the major axis, which is Y.
    board.terms(-1, 0, 0);
    board.operations(0x0301_2001);
    assert_eq!(board.finish(), 4);
    let (drawn_by_x, end_by_x) = ([2, 2, 2, 1, 0, 0, 0, 0], (0, 0));
    assert_ne!(board.row(1, 0), drawn_by_x);
    assert_eq!(board.row(1, 0), [2, 1, 2, 2, 0, 0, 0, 0]);
    assert_ne!(board.pattern_at(), end_by_x);
    assert_eq!(board.pattern_at(), (1, 3));
    assert_eq!(board.source_at(), (0, 0));
    assert_eq!(board.destination_at(), (3, 0));
}

#[test]
fn d3_in_read_codes_the_pattern_moves_as_the_source_and_wraps() {
    let mut board = board_with_pattern();
    board.pattern(1, 1);
    board.operations(0x0201_2000);
    // Three steps up left.
    board.codes(&[0x73]);
    assert_eq!(board.finish(), 4);
    let (drawn_by_x, end_by_x) = ([1, 2, 2, 2, 0, 0, 0, 0], (0, 1));
    assert_ne!(board.row(1, 0), drawn_by_x);
    assert_eq!(board.row(1, 0), [1, 1, 1, 1, 0, 0, 0, 0]);
    assert_ne!(board.pattern_at(), end_by_x);
    assert_eq!(board.pattern_at(), (2, 2));
}

#[test]
fn d3_in_write_forms_pattern_x_moves_by_1() {
    for (operations, codes) in [(0x0501_2001, None), (0x0401_2000, Some([0xD3]))] {
        let mut board = board_with_pattern();
        board.pattern(2, 1);
        board.dimensions(3, 0);
        board.terms(-1, 0, 0);
        board.operations(operations);
        if let Some(codes) = codes {
            board.codes(&codes);
        }
        assert_eq!(board.finish(), 4);
        assert_eq!(board.pattern_at(), (1, 1));
        assert_eq!(board.destination_at(), (0, 3));
    }
}

/// Map A 2 by 3 bytes, map B 2 by 3 bytes with rows 1, 2 and 3, and a block of that size.
fn board_with_rows() -> Board {
    let mut board = Board::new(12);
    board.map(1, 0, 2, 3, BITS_8);
    board.map(2, 6, 2, 3, BITS_8);
    board.memory[6..].copy_from_slice(&[0x11, 0x12, 0x21, 0x22, 0x31, 0x32]);
    board.dimensions(1, 2);
    board
}

#[test]
fn d4_inverting_moves_the_destination_the_other_way_in_y() {
    let mut board = board_with_rows();
    board.destination(0, 2);
    board.operations(0x2921_8000);
    assert_eq!(board.finish(), 6);
    let by_source_the_other_way = [0, 0, 0, 0, 0x11, 0x12];
    assert_ne!(board.memory[..6], by_source_the_other_way);
    assert_eq!(board.memory[..6], [0x31, 0x32, 0x21, 0x22, 0x11, 0x12]);
    let destination_by_source_the_other_way = (0, 5);
    assert_ne!(board.destination_at(), destination_by_source_the_other_way);
    assert_eq!(board.destination_at(), (0, -1));
    assert_eq!(board.source_at(), (0, 0));
}

#[test]
fn d4_inverting_follows_negative_signs_in_the_source_and_pattern() {
    let mut board = board_with_rows();
    board.map(3, 0, 2, 3, BITS_1);
    board.source(1, 2);
    board.pattern(1, 1);
    board.destination(1, 0);
    board.dimensions(1, 1);
    // The pattern, in the bytes that are drawn over, picks nothing that matters: both sources are the map.
    board.operations(0xA921_3006);
    assert_eq!(board.finish(), 4);
    assert_eq!(board.memory[..6], [0x31, 0x32, 0x21, 0x22, 0, 0]);
    assert_eq!(board.source_at(), (1, 0));
    let pattern_the_other_way = (1, 0);
    assert_ne!(board.pattern_at(), pattern_the_other_way);
    assert_eq!(board.pattern_at(), (1, 2));
    assert_eq!(board.destination_at(), (1, 2));
}
