//! The register bank (01, Registers).

mod common;

use common::Board;
use model::registers::LISTED;

/// The registers by offset, with what is left of all ones after the reduction, as read back.
const ALL_ONES_READ: [(u32, u32, u32); 28] = [
    (0x12, 1, 0x3),
    (0x14, 4, 0xFFFF_FFFF),
    (0x18, 2, 0xFFF),
    (0x1A, 2, 0xFFF),
    (0x1C, 1, 0xF),
    (0x20, 4, 0xFFFF_FFFF),
    (0x24, 4, 0xFFFF_FFFF),
    (0x28, 4, 0xFFFF_FFFF),
    (0x2C, 4, 0xFFFF_FFFF),
    (0x48, 1, 0xFF),
    (0x49, 1, 0xFF),
    (0x4A, 1, 0x7),
    (0x4C, 4, 0xFFFF_FFFF),
    (0x50, 4, 0xFFFF_FFFF),
    (0x54, 4, 0xFFFF_FFFF),
    (0x58, 4, 0xFFFF_FFFF),
    (0x5C, 4, 0xFFFF_FFFF),
    (0x60, 2, 0xFFF),
    (0x62, 2, 0xFFF),
    (0x6C, 2, 0xFFF),
    (0x6E, 2, 0xFFF),
    (0x70, 2, 0xFFF),
    (0x72, 2, 0xFFF),
    (0x74, 2, 0xFFF),
    (0x76, 2, 0xFFF),
    (0x78, 2, 0xFFFF),
    (0x7A, 2, 0xFFFF),
    // Function F hex is refused, so only the three lower bytes are written.
    (0x7C, 4, 0x00FF_FFFF),
];

#[test]
fn all_registers_of_a_fresh_state_are_zero() {
    let board = Board::fresh(1);
    for (offset, bytes, _) in LISTED {
        assert_eq!(board.read(offset, bytes), 0);
    }
}

#[test]
fn each_register_is_reduced() {
    for (offset, bytes, expected) in ALL_ONES_READ {
        let mut board = Board::fresh(1);
        if offset == 0x7C {
            board.write(0x7C, 2, 0xFFFF);
            board.write(0x7E, 1, 0xFF);
        } else {
            board.write(offset, bytes, 0xFFFF_FFFF);
        }
        for (other, bytes, _) in ALL_ONES_READ {
            let expected = if other == offset { expected } else { 0 };
            assert_eq!(board.read(other, bytes), expected, "{offset:X} {other:X}");
        }
    }
}

#[test]
fn e_k1_k2_go_modulo_16384() {
    let pairs = [
        (8_191, 8_191),
        (8_192, -8_192),
        (-8_192, -8_192),
        (-8_193, 8_191),
        (16_384, 0),
        (i32::MIN, 0),
        (i32::MAX, -1),
    ];
    for offset in [0x20, 0x24, 0x28] {
        for (written, stored) in pairs {
            let mut board = Board::fresh(1);
            board.write(offset, 4, written as u32);
            assert_eq!(board.read(offset, 4) as i32, stored);
        }
    }
}

#[test]
fn destinations_go_modulo_8192() {
    let pairs = [
        (6_143, 6_143),
        (6_144, -2_048),
        (-2_048, -2_048),
        (-2_049, 6_143),
        (-8_192, 0),
        (i16::MIN, 0),
        (i16::MAX, -1),
    ];
    for offset in [0x78, 0x7A] {
        for (written, stored) in pairs {
            let mut board = Board::fresh(1);
            board.write(offset, 2, written as u32);
            assert_eq!(board.read(offset, 2) as i16, stored);
        }
    }
}

#[test]
fn a_part_of_a_register_takes_its_bytes_and_is_reduced() {
    let mut board = Board::fresh(1);
    board.write(0x20, 4, 0xFFFF_FFFF);
    board.write(0x20, 1, 0x00);
    assert_eq!(board.read(0x20, 4), 0xFFFF_FF00);
    board.write(0x21, 1, 0x1F);
    assert_eq!(board.read(0x20, 4), 0x1F00);
    board.write(0x22, 2, 0x1234);
    assert_eq!(board.read(0x20, 4), 0x1F00);

    board.write(0x78, 2, 0xFFFF);
    board.write(0x79, 1, 0x17);
    assert_eq!(board.read(0x78, 2), 0x17FF);
    board.write(0x79, 1, 0x18);
    assert_eq!(board.read(0x78, 2), 0xF8FF);

    board.write(0x19, 1, 0xF5);
    board.write(0x18, 1, 0x67);
    assert_eq!(board.read(0x18, 2), 0x0567);
}

#[test]
fn one_write_may_cover_two_registers() {
    let mut board = Board::fresh(1);
    board.write(0x18, 4, 0x7002_F001);
    assert_eq!((board.read(0x18, 2), board.read(0x1A, 2)), (1, 2));
    board.write(0x48, 2, 0x1503);
    assert_eq!((board.read(0x48, 1), board.read(0x49, 1)), (3, 0x15));
    board.write(0x78, 4, 0xFFFE_1800);
    assert_eq!(board.read(0x78, 4), 0xFFFE_F800);
}

#[test]
fn higher_bits_of_a_written_value_are_dropped() {
    let mut board = Board::fresh(1);
    board.write(0x58, 1, 0xDDCC_BBAA);
    assert_eq!(board.read(0x58, 4), 0xAA);
    board.write(0x5A, 2, 0xDDCC_BBAA);
    assert_eq!(board.read(0x58, 4), 0xBBAA_00AA);
}

#[test]
fn bytes_go_least_significant_first() {
    let mut board = Board::fresh(1);
    board.write(0x4C, 4, 0x4433_2211);
    assert_eq!(
        [0, 1, 2, 3].map(|i| board.read(0x4C + i, 1)),
        [0x11, 0x22, 0x33, 0x44]
    );
    assert_eq!([0, 2].map(|i| board.read(0x4C + i, 2)), [0x2211, 0x4433]);
}

#[test]
fn the_map_index_selects_the_map() {
    let mut board = Board::fresh(1);
    for index in 0..4 {
        board.map(index, 100 + index, 10 + index, 20 + index, index);
    }
    for index in 0..4 {
        board.write(0x12, 1, index);
        let read = [(0x14, 4), (0x18, 2), (0x1A, 2), (0x1C, 1)].map(|(o, l)| board.read(o, l));
        assert_eq!(read, [100 + index, 9 + index, 19 + index, index]);
    }
}

#[test]
fn reads_are_allowed_during_a_drawing_and_change_nothing() {
    let mut board = Board::square(8);
    board.dimensions(5, 0);
    board.operations(0x0501_8000);
    board.run(2);
    let before = board.clone();
    assert_eq!(board.read(0x78, 2), 2);
    assert_eq!(board.read(0x7C, 4), 0x0501_8000);
    assert_eq!(board, before);
}
