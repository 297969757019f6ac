//! States that several test files begin with.

use super::{Board, BITS_1, BITS_8};

/// A board with a different value in every byte of every register that a reduction leaves free.
pub fn varied() -> Board {
    let mut board = Board::fresh(0x0001_0203);
    for index in 0..4 {
        board.map(
            index,
            0x1413_1211 * (index + 1),
            0x102 + index,
            0x304 + index,
            5 + index,
        );
    }
    board.write(0x12, 1, 2);
    board.terms(-2, 0x1234, -0x1234);
    board.write(0x2C, 4, 0x2423_2221);
    board.write(0x48, 2, 0x3231);
    board.write(0x4A, 1, 3);
    for (place, offset) in (0..).zip((0x4C..0x60).step_by(4)) {
        board.write(offset, 4, 0x4443_4241 + 0x0404_0404 * place);
    }
    board.dimensions(0x561, 0x671);
    board.mask_origin(0x781, 0x891);
    board.source(0x9A1, 0xAB1);
    board.pattern(0xBC1, 0xCD1);
    board.destination(-3, 0x1712);
    board.write(0x7C, 2, 0xD2D1);
    board.write(0x7E, 1, 0xD3);
    board
}

/// A line of 4 positions with 1 done.
pub fn line() -> Board {
    let mut board = Board::square(4);
    board.map(2, 0, 3, 2, BITS_8);
    board.map(3, 0, 3, 2, BITS_1);
    board.dimensions(3, 0);
    board.operations(0x2521_3000);
    board.run(1);
    board
}

/// Four codes of 2 positions with 3 done in all.
pub fn codes() -> Board {
    let mut board = Board::square(4);
    board.operations(0x0401_8000);
    board.codes(&[0x11; 4]);
    board.run(3);
    board
}

/// A block of 4 by 3 with 6 done.
pub fn block() -> Board {
    let mut board = Board::square(4);
    board.dimensions(3, 2);
    board.operations(0x0801_8000);
    board.run(6);
    board
}

/// Idle after a stop.
pub fn stopped() -> Board {
    let mut board = Board::square(4);
    board.operations(0x0401_8000);
    board.codes(&[0x00]);
    board
}

/// A line of 4 positions with 1 done that uses the destination only.
pub fn unfinished() -> Board {
    let mut board = Board::square(4);
    board.dimensions(3, 0);
    board.operations(0x0501_8000);
    board.run(1);
    board
}

/// An area boundary of 5 positions that goes up, with 1 done and a step in Y after it.
pub fn boundary() -> Board {
    let mut board = Board::square(4);
    board.terms(0, 2, -2);
    board.dimensions(4, 0);
    board.destination(0, 3);
    board.operations(0x0501_8032);
    board.run(1);
    board
}

/// A fill of 4 by 3 with 6 done, which is inside.
pub fn fill() -> Board {
    let mut board = Board::new(18);
    board.map(1, 0, 4, 4, BITS_8);
    board.map(3, 16, 4, 3, BITS_1);
    board.memory[16] = 0b0010_0000;
    board.dimensions(3, 2);
    board.operations(0x0A01_3000);
    board.run(6);
    board
}
