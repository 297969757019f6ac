//! Drawings whose maps have different pixel orders (02, 101; 003:586-632).

mod common;

use common::{Board, BITS_1, BITS_2, BITS_4, MOTOROLA};

/// A PxBlt of map B onto map A by pattern C under the mask map; where the pattern is 0, the background colour.
const COPY: u32 = 0x2821_3080;

#[test]
fn a_copy_from_intel_to_motorola_by_a_motorola_pattern_and_mask() {
    let mut board = Board::new(8);
    board.map(1, 0, 8, 1, BITS_2 | MOTOROLA);
    board.map(2, 2, 8, 1, BITS_2);
    board.map(3, 4, 8, 1, BITS_1 | MOTOROLA);
    board.map(0, 5, 8, 1, BITS_1 | MOTOROLA);
    // Destination: 1 at every pixel.
    board.memory[0..2].copy_from_slice(&[0b01_01_01_01, 0b01_01_01_01]);
    // Source: 3, 2, 1, 0, 0, 1, 2, 3 from the lowest bits up.
    board.memory[2..4].copy_from_slice(&[0b00_01_10_11, 0b11_10_01_00]);
    // Pattern: 1, 1, 1, 0, 1, 1, 0, 1, and mask: 0, 1, 1, 1, 1, 0, 1, 1, both from the highest bit down.
    board.memory[4..6].copy_from_slice(&[0b1110_1101, 0b0111_1011]);
    board.colours(0, 0b10);
    board.dimensions(7, 0);
    board.operations(COPY);
    board.finish();
    // Kept, source 2, source 1, background, source 0, kept, background, source 3, from the highest bits down.
    assert_eq!(board.memory[0..2], [0b01_10_01_10, 0b00_01_10_11]);
    assert_eq!(
        board.memory[2..],
        [0b00_01_10_11, 0b11_10_01_00, 0b1110_1101, 0b0111_1011, 0, 0]
    );
}

#[test]
fn a_copy_from_motorola_to_intel_by_an_intel_pattern_and_mask() {
    let mut board = Board::new(8);
    board.map(1, 0, 4, 1, BITS_4);
    board.map(2, 2, 4, 1, BITS_4 | MOTOROLA);
    board.map(3, 4, 4, 1, BITS_1);
    board.map(0, 5, 4, 1, BITS_1);
    board.memory[0..6].copy_from_slice(&[0x77, 0x77, 0x1D, 0x2B, 0b1011, 0b1101]);
    board.colours(0, 0x4);
    board.dimensions(3, 0);
    board.operations(COPY);
    board.finish();
    // Source 1, D, 2, B; pattern 1, 1, 0, 1; mask 1, 0, 1, 1.
    assert_eq!(board.row(1, 0), [0x1, 0x7, 0x4, 0xB]);
    assert_eq!(board.memory[0..2], [0x71, 0xB4]);
}

#[test]
fn every_mix_of_orders_draws_the_same_pixels() {
    for orders in 0..16 {
        let format = |bits: u32, map: u32| match orders >> map & 1 {
            0 => bits,
            _ => bits | MOTOROLA,
        };
        let mut board = Board::new(64);
        board.map(0, 0, 5, 3, format(BITS_1, 0));
        board.map(1, 8, 7, 4, format(BITS_4, 1));
        board.map(2, 24, 6, 3, format(BITS_4, 2));
        board.map(3, 40, 4, 2, format(BITS_1, 3));
        board.paint(0, &["11101", "10111", "11011"]);
        board.paint(1, &["1234567", "89ABCDE", "7654321", "EDCBA98"]);
        board.paint(2, &["123456", "789ABC", "DEF123"]);
        board.paint(3, &["1101", "0111"]);
        board.colours(0, 0x5);
        board.dimensions(5, 2);
        board.mask_origin(1, 1);
        board.destination(1, 1);
        board.operations(COPY);
        board.finish();
        // The background is 5; the mask keeps C, 5 and B, and what lies right of it.
        let drawn = ["1234567", "8125c5e", "7559a51", "edeb128"];
        assert_eq!(board.picture(1), drawn, "{orders:04b}");
    }
}

#[test]
fn one_map_can_be_source_and_destination_in_motorola_order() {
    let mut board = Board::new(4);
    board.map(1, 0, 8, 2, BITS_2 | MOTOROLA);
    board.memory[0..2].copy_from_slice(&[0b00_01_10_11, 0b01_00_11_10]);
    board.source(0, 0);
    board.destination(0, 1);
    board.dimensions(7, 0);
    board.operations(0x2811_8000);
    board.finish();
    assert_eq!(
        board.memory,
        [0b00_01_10_11, 0b01_00_11_10, 0b00_01_10_11, 0b01_00_11_10]
    );
}

#[test]
fn an_outline_in_motorola_order_is_filled_in_either() {
    for order in [0, MOTOROLA] {
        let mut board = Board::new(8);
        board.map(1, 0, 8, 1, BITS_2 | order);
        board.map(2, 2, 8, 1, BITS_1 | MOTOROLA);
        // Crossings at columns 1 and 6.
        board.memory[2] = 0b0100_0010;
        board.write(0x48, 2, 0x0503);
        board.colours(0b01, 0);
        board.dimensions(7, 0);
        board.operations(0x0A01_2000);
        board.finish();
        assert_eq!(board.picture(1), ["01111100"]);
        let bytes = match order {
            0 => [0b01_01_01_00, 0b00_00_01_01],
            _ => [0b00_01_01_01, 0b01_01_00_00],
        };
        assert_eq!(board.memory[0..2], bytes);
    }
}

#[test]
fn lines_and_codes_are_drawn_in_motorola_order() {
    let mut board = Board::new(4);
    board.map(1, 0, 4, 4, BITS_2 | MOTOROLA);
    board.colours(0b01, 0);
    board.dimensions(3, 0);
    // E stays 0, so every step is along both axes.
    board.terms(0, 0, 0);
    board.operations(0x0501_8000);
    board.finish();
    assert_eq!(
        board.memory,
        [0b01_00_00_00, 0b00_01_00_00, 0b00_00_01_00, 0b00_00_00_01]
    );
    board.colours(0b10, 0);
    board.destination(1, 0);
    board.operations(0x0401_8000);
    board.codes(&[0x12]);
    board.finish();
    assert_eq!(board.memory[0], 0b01_10_10_10);
}

#[test]
fn the_plane_mask_and_the_compare_condition_count_the_bits_of_a_pixel() {
    let mut board = Board::new(1);
    board.map(1, 0, 4, 1, BITS_2 | MOTOROLA);
    board.memory[0] = 0b00_01_10_11;
    // Plane 0 alone, where the destination's bit 0 is not 1.
    board.write(0x50, 4, 0b01);
    board.write(0x4A, 1, 2);
    board.write(0x4C, 4, 0b01);
    board.dimensions(3, 0);
    board.operations(0x0801_8000);
    board.finish();
    assert_eq!(board.memory[0], 0b01_01_11_11);
}
