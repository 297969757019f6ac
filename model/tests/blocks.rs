//! Blocks: their positions, moves and end (01, The functions; docs/DECISIONS.md).

mod common;

use common::{Board, BITS_1, BITS_8, IDLE};
use model::Drawing;

#[test]
fn the_total_of_a_block_is_the_product() {
    let mut board = Board::square(4);
    board.dimensions(9, 2);
    board.operations(0x0801_8000);
    assert_eq!(
        (board.coprocessor.total(), board.coprocessor.left()),
        (30, 30)
    );
    assert_eq!(board.run(13), 13);
    assert_eq!(
        board.coprocessor.drawing,
        Drawing::Block { column: 3, row: 1 }
    );
    assert_eq!(
        (board.coprocessor.total(), board.coprocessor.left()),
        (30, 17)
    );
    assert_eq!(board.finish(), 17);
    assert_eq!(
        (board.coprocessor.total(), board.coprocessor.left()),
        (0, 0)
    );
}

#[test]
fn the_largest_block_has_4096_times_4096_positions() {
    let mut board = Board::square(1);
    board.dimensions(4_095, 4_095);
    board.operations(0x0801_8000);
    assert_eq!(board.coprocessor.total(), 16_777_216);
}

#[test]
fn blocks_go_by_rows_with_the_octants_signs() {
    let rows = [
        (0, [(3, 3), (4, 3), (3, 4), (4, 4)], (3, 5)),
        (2, [(3, 3), (4, 3), (3, 2), (4, 2)], (3, 1)),
        (4, [(3, 3), (2, 3), (3, 4), (2, 4)], (3, 5)),
        (6, [(3, 3), (2, 3), (3, 2), (2, 2)], (3, 1)),
    ];
    for (octant, places, end) in rows {
        // Octant bit 0 does not touch blocks.
        for octant in [octant, octant | 1] {
            let mut board = Board::square(8);
            board.dimensions(1, 1);
            board.destination(3, 3);
            board.operations(0x0801_8000 | octant);
            assert_eq!(board.visited(), places);
            assert_eq!(board.destination_at(), end);
        }
    }
}

#[test]
fn at_a_rows_end_x_returns_and_y_steps_after_the_last_too() {
    // Source 3 by 3 and pattern 5 by 2, both narrower than the block of 7 by 4, which begins near the circle's seam.
    for (octant, x, y) in [(0, 1i32, 1i32), (2, 1, -1), (4, -1, 1), (6, -1, -1)] {
        let mut board = Board::square(8);
        board.map(2, 0, 3, 3, BITS_8);
        board.map(3, 0, 5, 2, BITS_1);
        board.dimensions(6, 3);
        board.source(2, 1);
        board.pattern(4, 0);
        board.destination(6_140, -2_046);
        board.operations(0x2821_3000 | octant);
        for row in 0..4 {
            for column in 0..7 {
                let source = ((2 + x * column).rem_euclid(3), (1 + y * row).rem_euclid(3));
                let pattern = ((4 + x * column).rem_euclid(5), (y * row).rem_euclid(2));
                let round = |pointer: i32| (pointer + 2_048).rem_euclid(8_192) - 2_048;
                let destination = (round(6_140 + x * column), round(-2_046 + y * row));
                assert_eq!(board.source_at(), (source.0 as u16, source.1 as u16));
                assert_eq!(board.pattern_at(), (pattern.0 as u16, pattern.1 as u16));
                assert_eq!(
                    board.destination_at(),
                    (destination.0 as i16, destination.1 as i16)
                );
                assert_eq!(board.run(1), 1);
            }
        }
        assert_eq!(board.coprocessor.drawing, IDLE);
        let end_y = if y == 1 { (2, -2_042) } else { (0, 6_142) };
        assert_eq!(board.source_at(), (2, end_y.0));
        assert_eq!(board.pattern_at(), (4, 0));
        assert_eq!(board.destination_at(), (6_140, end_y.1));
    }
}

#[test]
fn a_block_ignores_the_drawing_mode() {
    for mode in [0x00, 0x10, 0x20, 0x30] {
        for function in [0x0800_0000, 0x0900_0000] {
            let mut board = Board::square(1);
            board.operations(function | 0x1_8000 | mode);
            assert_eq!(board.finish(), 1);
            assert_eq!(board.memory, [0xFF]);
        }
    }
}

#[test]
fn a_block_leaves_unused_pointers_and_e() {
    let mut board = Board::square(4);
    board.terms(5, 1, 1);
    board.source(1_000, 1_001);
    board.pattern(1_002, 1_003);
    board.dimensions(2, 2);
    board.operations(0x0801_8000);
    board.finish();
    assert_eq!(board.source_at(), (1_000, 1_001));
    assert_eq!(board.pattern_at(), (1_002, 1_003));
    assert_eq!(board.coprocessor.registers.e, 5);
}
