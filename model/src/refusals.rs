//! The numbers a call answers with (01, Numbers a call answers with).

/// A refusal, in the order of the numbers.
#[derive(Clone, Copy, Debug, PartialEq, Eq)]
pub enum Refusal {
    /// Length not 1, 2 or 4, offset not a multiple of it, or offset above 7F hex.
    Place = 1,
    /// Write while a drawing is unfinished.
    Unfinished = 2,
    /// Some byte touched is of no listed register.
    Unlisted = 3,
    /// Write covering 7F whose function does not draw.
    Function = 4,
    /// A field of the pixel operations that no start accepts.
    Field = 5,
    /// A mix above 15 hex.
    Mix = 6,
    /// A used map's format, or two formats that do not go together.
    Format = 7,
    /// A used map ends beyond the memory.
    End = 8,
    /// A size outside the limit, or a run lent another length than the state's.
    Size = 9,
    /// A buffer or image that breaks the image rules, or a record that its own image would not load to.
    Image = 10,
}

/// The number of a call that is not refused.
pub const NONE: u32 = 0;

impl Refusal {
    /// The paper's number.
    pub fn number(self) -> u32 {
        self as u32
    }
}
