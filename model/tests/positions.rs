//! What one position reads and writes (01, One position; docs/DECISIONS.md).

mod common;

use common::{Board, BITS_1, BITS_4, BITS_8};

/// A board whose map A is a row of 8-bit pixels with these values at base 0, and map B another after it.
fn two_rows(destination: &[u8], source: &[u8]) -> Board {
    let mut board = Board::new((destination.len() + source.len()) as u32);
    board.map(1, 0, destination.len() as u32, 1, BITS_8);
    board.map(2, destination.len() as u32, source.len() as u32, 1, BITS_8);
    board.memory = [destination, source].concat();
    board.dimensions(destination.len() as u32 - 1, 0);
    board
}

#[test]
fn pattern_1_picks_foreground_source_and_mix_and_0_background() {
    // The last byte of the source row is the pattern 1 0 1 0.
    let mut ready = two_rows(&[0x0F; 4], &[0x11, 0x22, 0x33, 0x44, 0b0101]);
    ready.map(3, 8, 4, 1, BITS_1);
    ready.colours(0xAB, 0xCD);

    // Foreground colour with S, background source map with xor.
    let mut board = ready.clone();
    board.write(0x48, 2, 0x0603);
    board.operations(0x8821_3000);
    board.finish();
    assert_eq!(board.row(1, 0), [0xAB, 0x0F ^ 0x22, 0xAB, 0x0F ^ 0x44]);

    // Foreground source map with xor, background colour with S.
    let mut board = ready;
    board.write(0x48, 2, 0x0306);
    board.operations(0x2821_3000);
    board.finish();
    assert_eq!(board.row(1, 0), [0x0F ^ 0x11, 0xCD, 0x0F ^ 0x33, 0xCD]);
}

#[test]
fn pattern_8_is_always_1() {
    let mut board = two_rows(&[0; 4], &[0; 4]);
    board.colours(1, 2);
    board.operations(0x0821_8000);
    board.finish();
    assert_eq!(board.row(1, 0), [1, 1, 1, 1]);
}

#[test]
fn pattern_9_is_1_where_the_source_pixel_is_not_0() {
    let mut board = two_rows(&[0; 4], &[0, 1, 0, 0x80]);
    board.colours(1, 2);
    board.operations(0x0821_9000);
    board.finish();
    assert_eq!(board.row(1, 0), [2, 1, 2, 1]);
}

#[test]
fn pattern_9_looks_at_the_whole_source_pixel_whatever_the_planes() {
    let mut board = two_rows(&[0; 4], &[0, 1, 0, 0x80]);
    board.write(0x50, 4, 0x0F);
    board.colours(1, 2);
    board.operations(0x0821_9000);
    board.finish();
    assert_eq!(board.row(1, 0), [2, 1, 2, 1]);
}

#[test]
fn colours_use_their_low_bits() {
    let mut board = Board::new(1);
    board.map(1, 0, 2, 1, BITS_4);
    board.colours(0xFFFF_FFF5, 0);
    board.operations(0x0801_8000);
    board.finish();
    assert_eq!(board.memory, [0x05]);
}

#[test]
fn nothing_is_written_outside_the_destination_map_and_nothing_is_tiled() {
    let mut board = Board::new(64);
    board.map(1, 20, 4, 4, BITS_8);
    board.destination(-2, -2);
    board.dimensions(7, 7);
    board.operations(0x0801_8000);
    assert_eq!(board.finish(), 64);
    for (byte, value) in board.memory.iter().enumerate() {
        let inside = (20..36).contains(&byte);
        assert_eq!(*value, if inside { 0xFF } else { 0 });
    }
}

#[test]
fn the_mask_pixel_is_destination_less_origin() {
    let mut board = Board::new(64);
    board.map(0, 60, 3, 2, BITS_1);
    board.map(1, 0, 6, 6, BITS_8);
    // Row 0 of the mask is 1 0 1, row 1 is 0 1 1.
    board.memory[60] = 0b0011_0101;
    board.mask_origin(2, 3);
    board.dimensions(5, 5);
    board.operations(0x0801_8080);
    board.finish();
    assert_eq!(board.row(1, 2), [0; 6]);
    assert_eq!(board.row(1, 3), [0, 0, 0xFF, 0, 0xFF, 0]);
    assert_eq!(board.row(1, 4), [0, 0, 0, 0xFF, 0xFF, 0]);
    assert_eq!(board.row(1, 5), [0; 6]);
}

#[test]
fn the_edges_of_the_mask_boundary_are_inside_and_its_pixels_are_not_read_in_mode_01() {
    let mut board = Board::new(64);
    board.map(0, 60, 3, 2, BITS_1);
    board.map(1, 0, 6, 6, BITS_8);
    board.mask_origin(2, 3);
    board.dimensions(5, 5);
    board.operations(0x0801_8040);
    board.finish();
    for y in 0..6 {
        let row = if y == 3 || y == 4 {
            [0, 0, 0xFF, 0xFF, 0xFF, 0]
        } else {
            [0; 6]
        };
        assert_eq!(board.row(1, y), row);
    }
}

#[test]
fn mask_mode_00_ignores_the_mask() {
    let mut board = two_rows(&[0; 4], &[0; 4]);
    board.mask_origin(100, 100);
    board.operations(0x0821_8000);
    board.finish();
    assert_eq!(board.row(1, 0), [0xFF; 4]);
}

#[test]
fn a_true_condition_keeps_the_destination() {
    // Destinations 1, 5 and 9 against the value 5.
    let kept = [
        [true, true, true],
        [false, false, true],
        [false, true, false],
        [true, false, false],
        [false, false, false],
        [false, true, true],
        [true, false, true],
        [true, true, false],
    ];
    for (condition, kept) in (0..).zip(kept) {
        let mut board = two_rows(&[1, 5, 9], &[0]);
        board.write(0x4A, 1, condition);
        board.write(0x4C, 4, 0xABC0_0005);
        board.operations(0x0801_8000);
        board.finish();
        let expected: Vec<u32> = [1, 5, 9]
            .into_iter()
            .zip(kept)
            .map(|(old, is_kept)| if is_kept { old } else { 0xFF })
            .collect();
        assert_eq!(board.row(1, 0), expected, "condition {condition}");
    }
}

#[test]
fn a_fresh_states_condition_keeps_everything() {
    let mut board = Board::square(2);
    board.write(0x4A, 1, 0);
    board.operations(0x0801_8000);
    board.finish();
    assert_eq!(board.memory, [0; 4]);
}

#[test]
fn the_carry_mask_has_no_effect() {
    let drawn = [0, 0x77, 0xFFFF_FFFF].map(|carry_mask| {
        let mut board = two_rows(&[0x18, 0x99], &[0x19, 0x01]);
        board.write(0x48, 1, 0x12);
        board.write(0x54, 4, carry_mask);
        board.operations(0x2821_8000);
        board.finish();
        board.row(1, 0)
    });
    assert_eq!(drawn, [[0x31, 0x9A], [0x31, 0x9A], [0x31, 0x9A]]);
}

#[test]
fn positions_read_memory_as_it_is_then() {
    // Source and destination are one map; the destination is one to the right, so the first pixel spreads.
    let mut board = Board::new(5);
    board.map(1, 0, 5, 1, BITS_8);
    board.memory = vec![1, 2, 3, 4, 5];
    board.destination(1, 0);
    board.dimensions(3, 0);
    board.operations(0x2811_8000);
    board.finish();
    assert_eq!(board.memory, [1, 1, 1, 1, 1]);
}

#[test]
fn a_pattern_under_the_destination_is_read_as_it_is_then() {
    // The 1-bit pattern begins in the byte that the first position draws: 0000_0010 is 0 1 0.
    let mut board = Board::new(3);
    board.map(1, 0, 3, 1, BITS_8);
    board.map(2, 0, 3, 1, BITS_1);
    board.colours(0x70, 0b0000_0010);
    board.dimensions(2, 0);
    board.operations(0x0801_2000);
    board.finish();
    assert_eq!(board.memory, [0b0000_0010, 0x70, 0b0000_0010]);
}

#[test]
fn all_reads_of_a_position_come_before_its_write() {
    // Source, pattern, mask and destination are one pixel: D 1 is inverted by the foreground mix, and stays inverted.
    let mut board = Board::new(1);
    board.map(0, 0, 1, 1, BITS_1);
    board.map(1, 0, 1, 1, BITS_1);
    board.memory[0] = 1;
    board.write(0x48, 2, 0x050A);
    board.operations(0x2811_1080);
    board.finish();
    assert_eq!(board.memory, [0]);
}

#[test]
fn pixels_of_each_size_leave_their_neighbours() {
    for (format, bits) in [(0, 1), (1, 2), (2, 4), (3, 8)] {
        let ones = (1u32 << bits) - 1;
        let mut board = Board::new(3);
        board.map(1, 0, 3, 1, format);
        board.memory = vec![0x5A; 3];
        let before = board.row(1, 0);
        board.colours(0, 0);
        board.destination(1, 0);
        board.operations(0x0801_8000);
        board.finish();
        assert_eq!(board.row(1, 0), [before[0], 0, before[2]]);
        let touched = u32::from_le_bytes([0x5A, 0x5A, 0x5A, 0]) & !(ones << bits);
        assert_eq!(board.memory, touched.to_le_bytes()[..3]);
    }
}

#[test]
fn every_mix_draws_what_it_mixes() {
    for code in 0..0x16 {
        let mut board = two_rows(&[0x35], &[0x0F]);
        board.write(0x48, 1, code);
        board.write(0x50, 4, 0xF7);
        board.operations(0x2821_8000);
        board.finish();
        assert_eq!(
            board.pixel(1, 0, 0),
            model::mixes::mix(code, 8, 0xF7, 0x0F, 0x35)
        );
    }
}
