//! The twelve cases (01, Cases).

mod common;

use common::{Board, BITS_1, BITS_8, IDLE, STOPPED};
use model::mixes::mix;

const ADD: u32 = 0x12;
const DESTINATION_LESS_SOURCE: u32 = 0x13;

#[test]
fn case_01_logical_mixes() {
    assert_eq!(mix(0x1, 8, 0xFF, 0xF0, 0x3C), 0x30);
    assert_eq!(mix(0x6, 8, 0xFF, 0xF0, 0x3C), 0xCC);
    assert_eq!(mix(0x2, 8, 0xFF, 0xF0, 0x3C), 0xC0);
}

#[test]
fn case_02_held_sums() {
    assert_eq!(mix(ADD, 8, 0xFF, 200, 100), 255);
    assert_eq!(mix(DESTINATION_LESS_SOURCE, 8, 0xFF, 200, 100), 0);
    assert_eq!(mix(ADD, 4, 0xF, 9, 9), 15);
}

#[test]
fn case_03_plane_mask() {
    assert_eq!(mix(0x3, 8, 0x0F, 0xAA, 0x55), 0x5A);
}

#[test]
fn case_04_line() {
    let mut board = Board::square(8);
    board.terms(-1, 2, -4);
    board.dimensions(3, 0);
    board.operations(0x0501_8000);
    assert_eq!(board.visited(), [(0, 0), (1, 0), (2, 1), (3, 1)]);
    assert_eq!(board.coprocessor.registers.e, -1);
    assert_eq!(board.destination_at(), (3, 1));
}

#[test]
fn case_05_one_position_line() {
    let mut board = Board::square(8);
    board.operations(0x0501_8000);
    assert_eq!(board.finish(), 1);
    assert_eq!(board.pixel(1, 0, 0), 0xFF);

    let mut board = Board::square(8);
    board.operations(0x0501_8010);
    assert_eq!(board.finish(), 1);
    assert_eq!(board.memory, vec![0; 64]);
}

#[test]
fn case_06_code_35() {
    let mut board = Board::square(32);
    board.destination(17, 10);
    board.operations(0x0401_8000);
    board.codes(&[0x35]);
    let places = [(17, 10), (18, 9), (19, 8), (20, 7), (21, 6), (22, 5)];
    assert_eq!(board.visited(), places);
    assert_eq!(board.destination_at(), (22, 5));
}

#[test]
fn case_07_stop_code() {
    let mut board = Board::square(32);
    board.destination(17, 10);
    board.operations(0x0401_8000);
    board.write(0x2C, 4, 0xFFFF_0035);
    assert_eq!(board.finish(), 6);
    assert_eq!(board.destination_at(), (22, 5));
    assert_eq!(board.coprocessor.drawing, STOPPED);
}

#[test]
fn case_08_code_20() {
    let mut board = Board::square(32);
    board.destination(17, 10);
    board.operations(0x0401_8000);
    board.codes(&[0x20]);
    assert_eq!(board.finish(), 1);
    assert_eq!(board.memory, vec![0; 1024]);
    assert_eq!(board.coprocessor.drawing, IDLE);
}

#[test]
fn case_09_destination_x() {
    let mut board = Board::fresh(1);
    board.write(0x78, 2, 0x1800);
    assert_eq!(board.read(0x78, 2), 0xF800);
    assert_eq!(board.coprocessor.registers.destination_x, -2048);
}

#[test]
fn case_10_source_wraps() {
    let mut board = Board::new(16);
    board.map(1, 0, 8, 1, BITS_8);
    board.map(2, 8, 3, 1, BITS_8);
    board.memory[8..11].copy_from_slice(&[10, 11, 12]);
    board.source(3, 0);
    board.operations(0x2821_8000);
    board.finish();
    assert_eq!(board.pixel(1, 0, 0), 10);
}

#[test]
fn case_11_mask_boundary() {
    for mask_mode in [0x40, 0x80] {
        let mut board = Board::new(16);
        board.map(0, 8, 2, 1, BITS_1);
        board.memory[8] = 0xFF;
        board.map(1, 0, 8, 1, BITS_8);
        board.mask_origin(2, 0);
        board.dimensions(7, 0);
        board.operations(0x0801_8000 | mask_mode);
        assert_eq!(board.finish(), 8);
        assert_eq!(board.row(1, 0), [0, 0, 0xFF, 0xFF, 0, 0, 0, 0]);
    }
}

#[test]
fn case_12_map_at_the_end_of_memory() {
    let mut board = Board::new(64);
    board.map(1, 0, 8, 8, BITS_8);
    board.operations(0x0801_8000);

    let mut board = Board::new(64);
    board.map(1, 1, 8, 8, BITS_8);
    assert_eq!(board.refusal(0x7C, 4, 0x0801_8000), 8);
}
