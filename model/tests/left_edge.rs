//! Left of the map an area boundary draws in column 0 (003:2031-2033; 02, 102).

mod common;

use common::{Board, BITS_1, BITS_8};

const BOUNDARY: u32 = 0x30;

/// The terms of an upright line: Y alone steps.
fn upright(board: &mut Board) {
    board.terms(-1, 0, 0);
}

/// The bytes of column 0 of a square, after it was seen that no other column was drawn.
fn column_0(board: &Board) -> Vec<u32> {
    let rows = board.coprocessor.registers.maps[1].rows();
    let row = |y| {
        let row = board.row(1, y);
        assert!(row[1..].iter().all(|pixel| *pixel == 0), "row {y}");
        row[0]
    };
    (0..rows).map(row).collect()
}

#[test]
fn a_line_left_of_the_map_is_drawn_in_column_0_and_the_pointers_stay() {
    for x in [-1, -2, -2_048] {
        let mut board = Board::square(4);
        upright(&mut board);
        board.dimensions(3, 0);
        board.destination(x, 0);
        board.operations(0x0501_8000 | BOUNDARY | 0b001);
        let places = [(x, 0), (x, 1), (x, 2), (x, 3)].map(|(x, y)| (x as i16, y));
        assert_eq!(board.visited(), places);
        assert_eq!(board.destination_at(), (x as i16, 3));
        assert_eq!(column_0(&board), [0xFF, 0xFF, 0xFF, 0]);
    }
}

#[test]
fn codes_and_read_forms_do_so_too() {
    let mut board = Board::square(4);
    board.destination(-2, 3);
    board.operations(0x0401_8000 | BOUNDARY);
    board.codes(&[0x53]);
    board.finish();
    assert_eq!(column_0(&board), [0xFF, 0xFF, 0xFF, 0]);
    assert_eq!(board.destination_at(), (-2, 0));

    // In read forms the destination goes to the right: three crossings left of the map, and one in its column 0.
    for function in [2, 3] {
        let mut board = Board::square(4);
        upright(&mut board);
        board.dimensions(4, 0);
        board.write(0x48, 1, 0x12);
        board.colours(1, 0);
        board.destination(-3, 2);
        board.operations(function << 24 | 0x1_8000 | BOUNDARY | 0b001);
        if function == 2 {
            board.codes(&[0xD4]);
        }
        board.finish();
        assert_eq!(column_0(&board), [0, 0, 4, 0]);
        assert_eq!(board.destination_at(), (1, 2));
    }
}

#[test]
fn crossings_left_of_the_map_meet_in_one_mix() {
    // Down at -3 and up at -1: with xor the second takes the first away, and a third, at 0, draws again.
    let mut board = Board::square(4);
    board.write(0x48, 1, 0x06);
    upright(&mut board);
    board.dimensions(3, 0);
    for (x, y, octant, expected) in [(-3, 0, 0b001, 0xFF), (-1, 3, 0b011, 0), (0, 0, 0b001, 0xFF)] {
        board.destination(x, y);
        board.operations(0x0501_8000 | BOUNDARY | octant);
        board.finish();
        assert_eq!(column_0(&board), [expected, expected, expected, 0]);
    }
}

#[test]
fn rows_above_and_below_and_columns_to_the_right_are_left_out() {
    let mut board = Board::square(4);
    upright(&mut board);
    board.dimensions(9, 0);
    board.destination(-2, -3);
    board.operations(0x0501_8000 | BOUNDARY | 0b001);
    board.finish();
    assert_eq!(column_0(&board), [0xFF; 4]);

    for x in [4, 5, 6_143] {
        let mut board = Board::square(4);
        upright(&mut board);
        board.dimensions(3, 0);
        board.destination(x, 0);
        board.operations(0x0501_8000 | BOUNDARY | 0b001);
        board.finish();
        assert_eq!(board.memory, [0; 16]);
    }
}

#[test]
fn past_6143_the_pointer_is_left_of_the_map() {
    let mut board = Board::square(4);
    board.destination(6_142, 0);
    board.operations(0x0401_8000 | BOUNDARY);
    board.codes(&[0xF3]);
    board.finish();
    assert_eq!(column_0(&board), [0, 0, 0xFF, 0]);
    assert_eq!(board.destination_at(), (-2_047, 3));
}

#[test]
fn the_mask_is_asked_at_column_0() {
    // Mode, mask origin X, mask width in pixels, and whether column 0 is drawn; row 1 of the mask map is 1.
    let masks = [
        (0x40, 0, 1, [0xFF, 0xFF, 0, 0]),
        (0x40, 1, 4, [0, 0, 0, 0]),
        (0x80, 0, 1, [0, 0xFF, 0, 0]),
        (0x80, 1, 4, [0, 0, 0, 0]),
    ];
    for (mode, origin, width, expected) in masks {
        let mut board = Board::new(17);
        board.map(1, 0, 4, 4, BITS_8);
        board.map(0, 16, width, 2, BITS_1);
        board.memory[16] = 0xFF << width;
        board.mask_origin(origin, 0);
        upright(&mut board);
        board.dimensions(3, 0);
        board.destination(-1, 0);
        board.operations(0x0501_8000 | BOUNDARY | mode | 0b001);
        board.finish();
        assert_eq!(column_0(&board), expected, "mode {mode:X}, origin {origin}");
    }
}

#[test]
fn the_compare_condition_is_asked_of_column_0() {
    let mut board = Board::square(4);
    board.memory[4] = 5;
    board.write(0x4A, 1, 2);
    board.write(0x4C, 4, 5);
    upright(&mut board);
    board.dimensions(3, 0);
    board.destination(-1, 0);
    board.operations(0x0501_8000 | BOUNDARY | 0b001);
    board.finish();
    assert_eq!(column_0(&board), [0xFF, 5, 0xFF, 0]);
}

#[test]
fn the_other_modes_and_blocks_and_fills_know_no_such_rule() {
    for mode in [0x00, 0x10, 0x20] {
        let mut board = Board::square(4);
        upright(&mut board);
        board.dimensions(3, 0);
        board.destination(-1, 0);
        board.operations(0x0501_8000 | mode | 0b001);
        board.finish();
        assert_eq!(board.memory, [0; 16]);
    }
    // The last pattern, map B, is one pixel, which is made 1.
    for operations in [0x0801_8000, 0x0901_8000, 0x0A01_2000] {
        for mode in [0x00, 0x10, 0x20, 0x30] {
            let mut board = Board::new(17);
            board.map(1, 0, 4, 4, BITS_8);
            board.map(2, 16, 1, 1, BITS_1);
            board.memory[16] = 1;
            board.dimensions(1, 3);
            board.destination(-2, 0);
            board.operations(operations | mode);
            assert_eq!(board.finish(), 8);
            assert_eq!(board.memory[..16], [0; 16]);
        }
    }
}
