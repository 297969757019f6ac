//! Draw and step codes (01, The functions; 003:1918-1961).

/// The code that stops.
pub const STOP: u8 = 0x00;

/// What a step adds to X and Y: direction 0 right, 1 up right, then anticlockwise; up lowers Y.
pub const DIRECTIONS: [(i64, i64); 8] = [
    (1, 0),
    (1, -1),
    (0, -1),
    (-1, -1),
    (-1, 0),
    (-1, 1),
    (0, 1),
    (1, 1),
];

/// One code.
#[derive(Clone, Copy, Debug, PartialEq, Eq)]
pub struct Code {
    /// Bits 7-5: what each step adds to X and Y.
    pub direction: (i64, i64),
    /// Bit 4: whether it draws; otherwise it is a move code.
    pub draws: bool,
    /// Bits 3-0: the moves, one fewer than the positions.
    pub steps: u16,
}

impl Code {
    /// The fields of a code's byte.
    pub fn of(byte: u8) -> Code {
        Code {
            direction: DIRECTIONS[usize::from(byte >> 5)],
            draws: byte & 0x10 != 0,
            steps: u16::from(byte & 0x0F),
        }
    }

    /// Each code has n + 1 positions.
    pub fn positions(&self) -> u64 {
        u64::from(self.steps) + 1
    }
}

/// The codes of the starting write, lowest byte first: those of the highest `count` bytes of the direction steps.
pub fn of_write(steps: u32, count: u8) -> Vec<u8> {
    let unwritten = 4usize.saturating_sub(usize::from(count));
    steps.to_le_bytes()[unwritten..].to_vec()
}

/// Code number `code` of the starting write, if it has so many.
pub fn at(steps: u32, count: u8, code: u16) -> Option<Code> {
    byte(steps, count, code).map(Code::of)
}

/// The byte of code number `code` of the starting write, if it has so many.
pub fn byte(steps: u32, count: u8, code: u16) -> Option<u8> {
    of_write(steps, count).get(usize::from(code)).copied()
}
