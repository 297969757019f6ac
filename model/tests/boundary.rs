//! The area boundary, drawing mode 11 of lines and codes (003:2020-2029; 02, 102).

mod common;

use common::Board;
use model::Drawing;

const BOUNDARY: u32 = 0x30;

/// The numbers of the positions that were drawn, found by runs of one position over a square of 16 by 16.
fn drawn(board: &mut Board) -> Vec<u32> {
    let mut drawn = Vec::new();
    let mut number = 0;
    while board.coprocessor.drawing.is_unfinished() {
        board.memory.fill(0);
        board.run(1);
        if board.memory != [0; 256] {
            drawn.push(number);
        }
        number += 1;
    }
    drawn
}

/// A line in mode 11 from the middle of a square of 16 by 16.
fn line(function: u32, octant: u32, terms: (i32, i32, i32), dimension: u32) -> Board {
    let mut board = Board::square(16);
    board.terms(terms.0, terms.1, terms.2);
    board.dimensions(dimension, 0);
    board.destination(7, 7);
    board.operations(function << 24 | 0x1_8000 | BOUNDARY | octant);
    board
}

#[test]
fn lines_in_all_octants() {
    // Y steps before positions 1 and 3 where X is major, and before every one where Y is.
    let numbers: [&[u32]; 8] = [
        &[0, 2],
        &[0, 1, 2],
        &[1, 3],
        &[1, 2, 3],
        &[0, 2],
        &[0, 1, 2],
        &[1, 3],
        &[1, 2, 3],
    ];
    for (octant, numbers) in (0..).zip(numbers) {
        // In read forms too the line's own steps count, though the destination stays in its row.
        for function in [3, 5] {
            let mut board = line(function, octant, (0, 2, -2), 3);
            assert_eq!(drawn(&mut board), numbers, "{function} {octant}");
        }
    }
}

#[test]
fn downwards_the_last_of_each_run_is_drawn_and_upwards_the_first() {
    // Runs of positions 0 and 1, 2 to 4, and 5 to 7.
    let terms = (-1, 2, -4);
    for octant in [0b000, 0b100] {
        assert_eq!(drawn(&mut line(5, octant, terms, 7)), [1, 4]);
    }
    for octant in [0b010, 0b110] {
        assert_eq!(drawn(&mut line(5, octant, terms, 7)), [2, 5]);
    }
}

#[test]
fn the_last_position_downwards_and_the_first_upwards_are_never_drawn() {
    // At the last position E is not below 0, and a step in Y would follow.
    for (octant, numbers) in [(0b000, [1]), (0b100, [1]), (0b010, [2]), (0b110, [2])] {
        let mut board = line(5, octant, (-1, 2, -4), 4);
        assert_eq!(drawn(&mut board), numbers);
        assert_eq!(board.coprocessor.registers.e, 1);
    }
}

#[test]
fn a_horizontal_line_and_one_of_one_position_draw_nothing() {
    for octant in [0b000, 0b010, 0b100, 0b110] {
        assert_eq!(drawn(&mut line(5, octant, (-6, 0, -6), 6)), []);
    }
    for octant in 0..8 {
        assert_eq!(drawn(&mut line(5, octant, (0, 0, 0), 0)), []);
    }
}

#[test]
fn a_closed_outline_meets_every_row_an_even_number_of_times() {
    // A triangle from (2, 1) to (12, 5) to (5, 12) and back.
    let lines = [
        (0b000, 10, 4, (2, 1)),
        (0b100, 7, 7, (12, 5)),
        (0b111, 11, 3, (5, 12)),
    ];
    let mut board = Board::square(16);
    board.write(0x48, 1, 0x06);
    for (octant, a, b, (x, y)) in lines {
        board.terms(2 * b - a, 2 * b, 2 * (b - a));
        board.dimensions(a as u32, 0);
        board.destination(x, y);
        board.operations(0x0501_8000 | BOUNDARY | octant);
        board.finish();
    }
    assert_eq!(board.destination_at(), (2, 1));
    for y in 0..16 {
        let crossings = board.row(1, y).iter().filter(|pixel| **pixel != 0).count();
        let expected = if (1..12).contains(&y) { 2 } else { 0 };
        assert_eq!(crossings, expected, "row {y}");
    }
}

#[test]
fn codes_in_eight_directions() {
    for direction in 0..8 {
        let numbers: &[u32] = match direction {
            1..=3 => &[1, 2, 3],
            5..=7 => &[0, 1, 2],
            _ => &[],
        };
        // Neither E nor the octant touches codes, and in read forms the code's own steps count.
        for (function, octant, e) in [(4, 0, 0), (4, 2, -1), (2, 1, 0), (2, 2, -1)] {
            let mut board = Board::square(16);
            board.terms(e, 0, 0);
            board.destination(7, 7);
            board.operations(function << 24 | 0x1_8000 | BOUNDARY | octant);
            board.codes(&[direction << 5 | 0x13]);
            assert_eq!(drawn(&mut board), numbers, "{function} {direction}");
        }
    }
}

#[test]
fn a_code_of_one_position_and_a_move_code_draw_nothing() {
    for direction in 0..8 {
        let mut board = Board::square(16);
        board.destination(7, 7);
        board.operations(0x0401_8000 | BOUNDARY);
        board.codes(&[direction << 5 | 0x10, direction << 5 | 0x03]);
        assert_eq!(drawn(&mut board), []);
    }
}

#[test]
fn each_code_is_a_line_of_its_own() {
    // Up and up again: the position where they meet is drawn by the first alone.
    let mut board = Board::square(16);
    board.destination(2, 7);
    board.operations(0x0401_8000 | BOUNDARY);
    board.codes(&[0x52, 0x52]);
    assert_eq!(drawn(&mut board), [1, 2, 4, 5]);

    // Down and down again: by the second alone.
    board.codes(&[0xD2, 0xD2]);
    assert_eq!(drawn(&mut board), [0, 1, 3, 4]);

    // A valley's floor and a peak: the floor is drawn by neither, the peak by both.
    board.codes(&[0xF2, 0x32]);
    assert_eq!(drawn(&mut board), [0, 1, 4, 5]);
    board.codes(&[0x32, 0xF2]);
    assert_eq!(drawn(&mut board), [1, 2, 3, 4]);

    // Up, level and down: nothing of the level part.
    board.codes(&[0x51, 0x12, 0xD1, 0x10]);
    assert_eq!(drawn(&mut board), [1, 5]);
}

#[test]
fn the_look_back_bit_is_set_by_a_step_up_and_cleared_by_a_level_one() {
    for function in [3, 5] {
        // Y steps before positions 1 and 3 where X is major, and before every one where Y is.
        for (octant, bits) in [
            (0b010, [true, false, true]),
            (0b110, [true, false, true]),
            (0b011, [true, true, true]),
        ] {
            let mut board = line(function, octant, (0, 2, -2), 4);
            for (done, rose) in (1..).zip(bits) {
                board.run(1);
                assert_eq!(board.coprocessor.drawing, Drawing::Line { done, rose });
            }
        }
        for octant in [0b000, 0b001, 0b100, 0b101] {
            let mut board = line(function, octant, (0, 2, -2), 4);
            for done in 1..4 {
                board.run(1);
                let rose = false;
                assert_eq!(board.coprocessor.drawing, Drawing::Line { done, rose });
            }
        }
    }
}

#[test]
fn the_other_modes_keep_no_look_back_bit() {
    for mode in [0x00, 0x10, 0x20] {
        let mut board = Board::square(16);
        board.terms(0, 2, -2);
        board.dimensions(4, 0);
        board.destination(7, 7);
        board.operations(0x0501_8000 | mode | 0b011);
        for done in 1..4 {
            board.run(1);
            let rose = false;
            assert_eq!(board.coprocessor.drawing, Drawing::Line { done, rose });
        }
    }
}

#[test]
fn the_bit_and_not_e_decides_what_a_line_upwards_draws() {
    // A line upwards after a level step, whose image is changed to state 3 and only so draws.
    for (state, is_drawn) in [(1, false), (3, true)] {
        let mut board = line(5, 0b010, (-1, 2, -4), 7);
        board.run(1);
        let mut image = board.image();
        assert_eq!(image[9], 1);
        image[9] = state;
        assert_eq!(board.coprocessor.load(&image), 0);
        board.run(1);
        assert_eq!(board.memory != [0; 256], is_drawn);
        // The next step sets the bit anew.
        assert_eq!(board.image()[9], 3);
        board.run(1);
        assert_eq!(board.image()[9], 1);
    }
}

#[test]
fn a_line_downwards_does_not_use_a_bit_that_it_is_loaded_with() {
    for octant in [0b000, 0b001, 0b100, 0b101] {
        let mut begun = line(5, octant, (-1, 2, -4), 7);
        begun.run(1);
        let mut image = begun.image();
        assert_eq!(image[9], 1);
        image[9] = 3;
        let mut loaded = begun.clone();
        assert_eq!(loaded.coprocessor.load(&image), 0);
        assert_eq!(loaded.image(), image);
        assert_eq!(loaded.run(0), 0);
        assert_eq!(loaded.image(), image);

        begun.run(1);
        loaded.run(1);
        assert_eq!(loaded, begun);
        assert_eq!(loaded.image()[9], 1);
    }
}
