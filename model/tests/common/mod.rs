//! A coprocessor with its memory, for the tests.
#![allow(dead_code)]

pub mod states;

use model::{pixels, Coprocessor, Drawing};

/// Idle, and not after a stop.
pub const IDLE: Drawing = Drawing::Nothing { stopped: false };

/// Idle after a stop.
pub const STOPPED: Drawing = Drawing::Nothing { stopped: true };

/// The first position of a fill.
pub const FILL_BEGUN: Drawing = Drawing::Fill {
    column: 0,
    row: 0,
    inside: false,
};

/// A line after so many positions, without the look-back bit.
pub const fn line_at(done: u16) -> Drawing {
    Drawing::Line { done, rose: false }
}

/// Map format of 1-bit pixels.
pub const BITS_1: u32 = 0;
/// Map format of 2-bit pixels.
pub const BITS_2: u32 = 1;
/// Map format of 4-bit pixels.
pub const BITS_4: u32 = 2;
/// Map format of 8-bit pixels.
pub const BITS_8: u32 = 3;
/// The order bit of a map's format.
pub const MOTOROLA: u32 = 8;

/// A coprocessor and the memory it is lent.
#[derive(Clone, Debug, PartialEq, Eq)]
pub struct Board {
    pub coprocessor: Coprocessor,
    pub memory: Vec<u8>,
}

impl Board {
    /// A fresh state over zero bytes.
    pub fn fresh(size: u32) -> Board {
        let (coprocessor, refusal) = Coprocessor::fresh(size);
        assert_eq!(refusal, 0);
        let memory = vec![0; size as usize];
        Board {
            coprocessor,
            memory,
        }
    }

    /// A fresh state set to draw: both mixes S, compare never, all planes, foreground colour FF hex.
    pub fn new(size: u32) -> Board {
        let mut board = Board::fresh(size);
        board.write(0x48, 2, 0x0303);
        board.write(0x4A, 1, 4);
        board.write(0x50, 4, 0xFFFF_FFFF);
        board.write(0x58, 4, 0xFF);
        board
    }

    /// A board whose map A is a square of 8-bit pixels at base 0, in a memory just as large.
    pub fn square(side: u32) -> Board {
        let mut board = Board::new(side * side);
        board.map(1, 0, side, side, BITS_8);
        board
    }

    /// A write that is accepted.
    pub fn write(&mut self, offset: u32, length: u32, value: u32) {
        let refusal = self.coprocessor.write(offset, length, value);
        assert_eq!(refusal, 0, "write {offset:X} {length} {value:X}");
    }

    /// The number of a write that is refused and changes nothing.
    pub fn refusal(&mut self, offset: u32, length: u32, value: u32) -> u32 {
        let before = self.coprocessor.clone();
        let refusal = self.coprocessor.write(offset, length, value);
        assert_ne!(refusal, 0, "write {offset:X} {length} {value:X}");
        assert_eq!(self.coprocessor, before);
        refusal
    }

    /// The value of a read that is accepted.
    pub fn read(&self, offset: u32, length: u32) -> u32 {
        let (refusal, value) = self.coprocessor.read(offset, length);
        assert_eq!(refusal, 0, "read {offset:X} {length}");
        value
    }

    /// Sets up a map of so many pixels.
    pub fn map(&mut self, index: u32, base: u32, width: u32, height: u32, format: u32) {
        self.write(0x12, 1, index);
        self.write(0x14, 4, base);
        self.write(0x18, 2, width - 1);
        self.write(0x1A, 2, height - 1);
        self.write(0x1C, 1, format);
    }

    pub fn terms(&mut self, e: i32, k1: i32, k2: i32) {
        self.write(0x20, 4, e as u32);
        self.write(0x24, 4, k1 as u32);
        self.write(0x28, 4, k2 as u32);
    }

    pub fn colours(&mut self, foreground: u32, background: u32) {
        self.write(0x58, 4, foreground);
        self.write(0x5C, 4, background);
    }

    pub fn dimensions(&mut self, first: u32, second: u32) {
        self.write(0x60, 2, first);
        self.write(0x62, 2, second);
    }

    pub fn mask_origin(&mut self, x: u32, y: u32) {
        self.write(0x6C, 2, x);
        self.write(0x6E, 2, y);
    }

    pub fn source(&mut self, x: u32, y: u32) {
        self.write(0x70, 2, x);
        self.write(0x72, 2, y);
    }

    pub fn pattern(&mut self, x: u32, y: u32) {
        self.write(0x74, 2, x);
        self.write(0x76, 2, y);
    }

    pub fn destination(&mut self, x: i32, y: i32) {
        self.write(0x78, 2, x as u32);
        self.write(0x7A, 2, y as u32);
    }

    /// Writes the pixel operations, which starts a line or block.
    pub fn operations(&mut self, value: u32) {
        self.write(0x7C, 4, value);
    }

    /// Writes codes into the highest bytes of the direction steps, which starts draw and step if stored.
    pub fn codes(&mut self, codes: &[u8]) {
        let value = codes
            .iter()
            .rfold(0, |value, code| value << 8 | u32::from(*code));
        self.write(0x30 - codes.len() as u32, codes.len() as u32, value);
    }

    /// The positions done by a run that is not refused.
    pub fn run(&mut self, allowance: u32) -> u32 {
        let (refusal, done) = self.coprocessor.run(&mut self.memory, allowance);
        assert_eq!(refusal, 0);
        done
    }

    /// The positions done by a run to the end.
    pub fn finish(&mut self) -> u32 {
        let done = self.run(u32::MAX);
        assert!(!self.coprocessor.drawing.is_unfinished());
        done
    }

    /// The destination of each position of a run to the end.
    pub fn visited(&mut self) -> Vec<(i16, i16)> {
        let mut places = Vec::new();
        while self.coprocessor.drawing.is_unfinished() {
            places.push(self.destination_at());
            assert_eq!(self.run(1), 1);
        }
        places
    }

    pub fn source_at(&self) -> (u16, u16) {
        let registers = &self.coprocessor.registers;
        (registers.source_x, registers.source_y)
    }

    pub fn pattern_at(&self) -> (u16, u16) {
        let registers = &self.coprocessor.registers;
        (registers.pattern_x, registers.pattern_y)
    }

    pub fn destination_at(&self) -> (i16, i16) {
        let registers = &self.coprocessor.registers;
        (registers.destination_x, registers.destination_y)
    }

    /// The pixel of a map.
    pub fn pixel(&self, index: usize, x: u32, y: u32) -> u32 {
        let map = &self.coprocessor.registers.maps[index];
        pixels::get(&self.memory, &map.layout(), (x, y))
    }

    /// The pixels of a map's row.
    pub fn row(&self, index: usize, y: u32) -> Vec<u32> {
        let row_length = self.coprocessor.registers.maps[index].row_length();
        (0..row_length).map(|x| self.pixel(index, x, y)).collect()
    }

    /// Sets a map's pixels row by row, each a digit of a row's text.
    pub fn paint(&mut self, index: usize, rows: &[&str]) {
        let layout = self.coprocessor.registers.maps[index].layout();
        for (y, row) in (0..).zip(rows) {
            for (x, pixel) in (0..).zip(row.chars()) {
                let value = pixel.to_digit(16).expect("a digit");
                pixels::put(&mut self.memory, &layout, (x, y), value);
            }
        }
    }

    /// A map's pixels as rows of digits.
    pub fn picture(&self, index: usize) -> Vec<String> {
        let rows = self.coprocessor.registers.maps[index].rows();
        let digit = |pixel| char::from_digit(pixel, 16).expect("a digit");
        (0..rows)
            .map(|y| self.row(index, y).into_iter().map(digit).collect())
            .collect()
    }

    /// The image of the state, which is accepted.
    pub fn image(&self) -> [u8; 115] {
        let mut image = [0; 115];
        assert_eq!(self.coprocessor.save(&mut image), 0);
        image
    }
}
