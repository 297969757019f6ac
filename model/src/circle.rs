//! Numbers that go round: past one end they come in at the other (01, Registers; 01, Maps and pointers).

/// A circle of whole numbers.
#[derive(Clone, Copy, Debug, PartialEq, Eq)]
pub struct Circle {
    first: i64,
    length: i64,
}

/// 01, Registers: E, K1 and K2 go modulo 16,384 into -8,192 to 8,191.
pub const TERMS: Circle = Circle {
    first: -8_192,
    length: 16_384,
};

/// 01, Registers: destination X and Y go modulo 8,192 into -2,048 to 6,143.
pub const DESTINATION: Circle = Circle {
    first: -2_048,
    length: 8_192,
};

/// 01, Maps and pointers: the pointers along one side of a map, given the register that is one less than its size.
pub fn side(register: u16) -> Circle {
    Circle {
        first: 0,
        length: i64::from(register) + 1,
    }
}

impl Circle {
    /// The number of the circle that differs from `number` by a multiple of the circle's length.
    pub fn reduce(self, number: i64) -> i64 {
        let remainder = number.rem_euclid(self.length);
        (remainder - self.first).rem_euclid(self.length) + self.first
    }
}
