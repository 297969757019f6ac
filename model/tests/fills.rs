//! Area fills, function 10 (003:2083-2113; 02, 102).

mod common;

use common::{Board, BITS_1, BITS_4, FILL_BEGUN, IDLE};
use model::Drawing;

/// A board whose map A has pixels of 4 bits, all 7, and whose map C, of 1 bit, has these rows; a fill of its size is set up
/// that makes the foreground 1 and the background 2.
fn board(rows: &[&str]) -> Board {
    let (width, height) = (rows[0].len() as u32, rows.len() as u32);
    let mut board = Board::new(512);
    board.memory.fill(0x77);
    board.map(1, 0, width, height, BITS_4);
    board.map(3, 256, width, height, BITS_1);
    board.paint(3, rows);
    board.colours(1, 2);
    board.dimensions(width - 1, height - 1);
    board
}

/// What the fill of these rows draws.
fn filled(rows: &[&str]) -> Vec<String> {
    let mut board = board(rows);
    board.operations(0x0A01_3000);
    let positions = rows[0].len() * rows.len();
    assert_eq!(board.finish() as usize, positions);
    board.picture(1)
}

#[test]
fn the_opening_pixel_is_filled_and_the_closing_one_is_not() {
    assert_eq!(filled(&["00100100"]), ["22111222"]);
    assert_eq!(filled(&["11000000"]), ["12222222"]);
    assert_eq!(filled(&["10000001"]), ["11111112"]);
    assert_eq!(filled(&["01101011"]), ["21221121"]);
    assert_eq!(filled(&["00000000"]), ["22222222"]);
}

#[test]
fn each_row_starts_outside() {
    assert_eq!(
        filled(&["00010", "00000", "10001"]),
        ["22211", "22222", "11112"]
    );
    // An odd row does not turn the next one.
    assert_eq!(filled(&["1000", "0000", "0100"]), ["1111", "2222", "2111"]);
}

#[test]
fn background_mix_5_leaves_what_is_outside() {
    let mut board = board(&["00100100"]);
    board.write(0x49, 1, 5);
    board.operations(0x0A01_3000);
    board.finish();
    assert_eq!(board.picture(1), ["77111777"]);
}

#[test]
fn a_fill_has_the_positions_and_moves_of_a_block() {
    for octant in 0..4 {
        let mut fill = board(&["010010", "100100", "001001", "010001"]);
        fill.map(2, 0, 5, 3, BITS_4);
        fill.dimensions(6, 4);
        fill.source(3, 2);
        fill.pattern(4, 1);
        fill.destination(-2, 6_142);
        let mut block = fill.clone();
        fill.operations(0x2A21_3000 | octant);
        block.operations(0x2821_3000 | octant);
        assert_eq!(fill.coprocessor.total(), 35);
        for left in (0..35).rev() {
            assert_eq!((fill.run(1), block.run(1)), (1, 1));
            assert_eq!(fill.coprocessor.left(), left);
            assert_eq!(fill.source_at(), block.source_at());
            assert_eq!(fill.pattern_at(), block.pattern_at());
            assert_eq!(fill.destination_at(), block.destination_at());
        }
        assert_eq!(fill.coprocessor.drawing, IDLE);
        assert_eq!(fill.coprocessor.registers.e, 0);
    }
}

#[test]
fn y_goes_in_either_direction() {
    let mut up = board(&["0101", "0010"]);
    up.pattern(0, 1);
    up.destination(0, 1);
    up.operations(0x0A01_3002);
    up.finish();
    assert_eq!(up.picture(1), ["2112", "2211"]);
    assert_eq!(up.destination_at(), (0, -1));
}

#[test]
fn the_pattern_wraps_and_goes_on_turning() {
    // A pattern of three pixels under rows of eight, from its pixel 1 on: 01 001 001 and 10 010 010.
    let mut board = board(&["00000000", "00000000"]);
    board.map(3, 256, 3, 2, BITS_1);
    board.paint(3, &["001", "010"]);
    board.pattern(1, 0);
    board.operations(0x0A01_3000);
    board.finish();
    assert_eq!(board.picture(1), ["21112221", "11122211"]);
    assert_eq!(board.pattern_at(), (1, 0));
}

#[test]
fn positions_that_are_left_out_turn_too() {
    // Outside the map: two pixels to the left, and one row above.
    let mut outside = board(&["01000010", "01000100"]);
    outside.destination(-2, -1);
    outside.operations(0x0A01_3000);
    outside.finish();
    assert_eq!(outside.picture(1), ["11122277", "77777777"]);

    // Outside the mask boundary: columns 2 to 5 alone.
    let mut bounded = board(&["01000010"]);
    bounded.map(0, 300, 4, 1, BITS_1);
    bounded.mask_origin(2, 0);
    bounded.operations(0x0A01_3040);
    bounded.finish();
    assert_eq!(bounded.picture(1), ["77111177"]);

    // On a 0 mask pixel.
    let mut masked = board(&["01000010"]);
    masked.map(0, 300, 8, 1, BITS_1);
    masked.paint(0, &["00110001"]);
    masked.operations(0x0A01_3080);
    masked.finish();
    assert_eq!(masked.picture(1), ["77117772"]);

    // Where the compare condition holds.
    let mut compared = board(&["01000010"]);
    compared.paint(1, &["95559559"]);
    compared.write(0x4A, 1, 2);
    compared.write(0x4C, 4, 5);
    compared.operations(0x0A01_3000);
    compared.finish();
    assert_eq!(compared.picture(1), ["25551552"]);
}

#[test]
fn the_drawing_mode_is_ignored() {
    for mode in [0x00, 0x10, 0x20, 0x30] {
        let mut board = board(&["0101", "1001"]);
        board.operations(0x0A01_3000 | mode);
        board.finish();
        assert_eq!(board.picture(1), ["2112", "1112"]);
    }
}

#[test]
fn octant_bit_0_does_not_touch_a_fill() {
    let mut board = board(&["0101", "1001"]);
    board.operations(0x0A01_3001);
    board.finish();
    assert_eq!(board.picture(1), ["2112", "1112"]);
}

/// A board whose map A, of 1 bit, has these rows, and on which a fill of it by itself as the pattern is set up.
fn board_in_place(rows: &[&str]) -> Board {
    let mut board = board(rows);
    board.map(1, 256, rows[0].len() as u32, rows.len() as u32, BITS_1);
    board.colours(1, 0);
    board
}

#[test]
fn a_map_is_filled_in_place() {
    // 003:2104: the outline is pattern and destination; the background is 0.
    let mut board = board_in_place(&["00100100", "01100110", "11000010"]);
    board.operations(0x0A01_1000);
    board.finish();
    assert_eq!(board.picture(1), ["00111000", "01000100", "10000011"]);
}

#[test]
fn a_fill_in_place_takes_its_foreground_from_a_source_map() {
    // 003:2104: the mask's data, combined with the filled area.
    let mut board = board_in_place(&["01000010"]);
    board.map(2, 300, 8, 1, BITS_1);
    board.paint(2, &["10101010"]);
    board.operations(0x2A21_1000);
    board.finish();
    assert_eq!(board.picture(1), ["00101000"]);
}

#[test]
fn a_fill_one_to_the_right_reads_what_it_has_drawn() {
    let mut board = board_in_place(&["10010000"]);
    board.destination(1, 0);
    board.dimensions(6, 0);
    board.operations(0x0A01_1000);
    board.finish();
    let from_a_copy_of_the_pattern = ["11110000"];
    assert_ne!(board.picture(1), from_a_copy_of_the_pattern);
    assert_eq!(board.picture(1), ["11000000"]);
}

#[test]
fn the_bit_is_kept_in_the_record_and_cleared_at_a_rows_end() {
    let mut board = board(&["0100", "0011"]);
    board.operations(0x0A01_3000);
    assert_eq!(board.coprocessor.drawing, FILL_BEGUN);
    let insides = [false, true, true, false, false, false, true];
    for (done, inside) in (1..).zip(insides) {
        board.run(1);
        let (column, row) = (done % 4, done / 4);
        let expected = Drawing::Fill {
            column,
            row,
            inside,
        };
        assert_eq!(board.coprocessor.drawing, expected);
        assert_eq!(board.image()[9], if inside { 3 } else { 1 });
    }
    board.run(1);
    assert_eq!(board.coprocessor.drawing, IDLE);
}

#[test]
fn a_fill_in_place_that_is_cut_in_mid_row_ends_as_the_whole() {
    let mut begun = board_in_place(&["0100101100", "1100011011"]);
    begun.operations(0x0A01_1000);
    let mut whole = begun.clone();
    whole.finish();
    for cut in 1..20 {
        let mut board = begun.clone();
        board.run(cut);
        let mut other = Board::fresh(1);
        assert_eq!(other.coprocessor.load(&board.image()), 0);
        other.memory = board.memory;
        other.finish();
        assert_eq!(other, whole, "cut at {cut}");
    }
}

#[test]
fn the_bit_is_never_found_again_from_memory() {
    // The row shows an opening pixel, and the image says that it is outside.
    let mut board = board_in_place(&["01000000"]);
    board.operations(0x0A01_1000);
    board.run(3);
    let mut image = board.image();
    assert_eq!(image[9], 3);
    image[9] = 1;
    assert_eq!(board.coprocessor.load(&image), 0);
    board.finish();
    assert_eq!(board.picture(1), ["01100000"]);
}
