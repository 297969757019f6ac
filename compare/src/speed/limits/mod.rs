//! The same work by hand: plain loops and library calls that are given places, sizes and colours alone, and go by rows, lines or codes.

pub mod bits;
pub mod bytes;
pub mod lines;
pub mod patterns;

mod masks;

/// All work of a workload, done by hand on its memory.
pub type Limit = Box<dyn Fn(&mut [u8])>;

/// Rows of pixels in a memory, measured in bytes or in bits.
#[derive(Clone, Copy)]
pub struct Rows {
    /// Where the first row starts, and how far behind it the next one does.
    pub at: usize,
    pub apart: usize,
    pub width: usize,
    pub count: usize,
}

impl Rows {
    /// The rows of a whole map.
    pub const fn of_map(at: usize, width: usize, count: usize) -> Rows {
        Rows {
            at,
            apart: width,
            width,
            count,
        }
    }

    /// Where each row starts.
    fn starts(self) -> impl Iterator<Item = usize> {
        (0..self.count).map(move |row| self.at + row * self.apart)
    }
}
