//! The fields of the pixel operations register (01, Registers; 003:2857-2970).

/// The pixel operations, field by field.
#[derive(Clone, Copy, Debug, PartialEq, Eq)]
pub struct Operations {
    /// Bits 31-30.
    pub background_source: u32,
    /// Bits 29-28.
    pub foreground_source: u32,
    /// Bits 27-24, which 003 calls the step function.
    pub function: u32,
    /// Bits 23-20.
    pub source: u32,
    /// Bits 19-16.
    pub destination: u32,
    /// Bits 15-12.
    pub pattern: u32,
    /// Bits 7-6.
    pub mask: u32,
    /// Bits 5-4.
    pub drawing_mode: u32,
    /// Bits 2-0.
    pub octant: u32,
}

/// Foreground and background source: the colour register.
pub const COLOUR: u32 = 0b00;
/// Foreground and background source: the source map.
pub const SOURCE_MAP: u32 = 0b10;

/// Draw and step, read form.
pub const CODES_READ: u32 = 2;
/// Line draw, read form.
pub const LINE_READ: u32 = 3;
/// Draw and step, write form.
pub const CODES_WRITE: u32 = 4;
/// Line draw, write form.
pub const LINE_WRITE: u32 = 5;
/// PxBlt.
pub const PXBLT: u32 = 8;
/// Inverting PxBlt.
pub const INVERTING_PXBLT: u32 = 9;
/// Area fill.
pub const AREA_FILL: u32 = 10;

/// Pattern code: always 1.
pub const PATTERN_FOREGROUND: u32 = 8;
/// Pattern code: 1 where the source pixel is not 0.
pub const PATTERN_FROM_SOURCE: u32 = 9;

/// Mask mode: the boundary only.
pub const MASK_BOUNDARY: u32 = 0b01;
/// Mask mode: the boundary and the pixels.
pub const MASK_ENABLED: u32 = 0b10;

/// Mask mode that no start accepts.
pub const MASK_RESERVED: u32 = 0b11;

/// Drawing mode: first pixel null.
pub const FIRST_NULL: u32 = 0b01;
/// Drawing mode: last pixel null (003:2959; docs/DIFFERENCES.md on 003:4714).
pub const LAST_NULL: u32 = 0b10;
/// Drawing mode: area boundary.
pub const AREA_BOUNDARY: u32 = 0b11;

/// The kinds of drawing (01, What the board draws; 02, 102).
#[derive(Clone, Copy, Debug, PartialEq, Eq)]
pub enum Kind {
    /// A line.
    Line,
    /// A run of codes.
    Codes,
    /// A block.
    Block,
    /// An area fill.
    Fill,
}

impl Operations {
    /// The fields of the register's value.
    pub fn of(value: u32) -> Operations {
        Operations {
            background_source: (value >> 30) & 0b11,
            foreground_source: (value >> 28) & 0b11,
            function: (value >> 24) & 0xF,
            source: (value >> 20) & 0xF,
            destination: (value >> 16) & 0xF,
            pattern: (value >> 12) & 0xF,
            mask: (value >> 6) & 0b11,
            drawing_mode: (value >> 4) & 0b11,
            octant: value & 0b111,
        }
    }

    /// What the function draws, if it is 2, 3, 4, 5, 8, 9 or 10.
    pub fn kind(&self) -> Option<Kind> {
        match self.function {
            LINE_READ | LINE_WRITE => Some(Kind::Line),
            CODES_READ | CODES_WRITE => Some(Kind::Codes),
            PXBLT | INVERTING_PXBLT => Some(Kind::Block),
            AREA_FILL => Some(Kind::Fill),
            _ => None,
        }
    }

    /// Whether the function is a read form.
    pub fn is_read_form(&self) -> bool {
        matches!(self.function, CODES_READ | LINE_READ)
    }

    /// Whether a line or codes draw an area boundary; blocks and fills ignore the drawing mode.
    pub fn draws_boundary(&self) -> bool {
        let has_mode = matches!(self.kind(), Some(Kind::Line | Kind::Codes));
        has_mode && self.drawing_mode == AREA_BOUNDARY
    }

    /// Whether the source map is used as colour: a source field is 10.
    pub fn uses_source_as_colour(&self) -> bool {
        self.foreground_source == SOURCE_MAP || self.background_source == SOURCE_MAP
    }

    /// Whether the source map is used: a source field is 10 or the pattern is 9.
    pub fn uses_source(&self) -> bool {
        self.uses_source_as_colour() || self.pattern == PATTERN_FROM_SOURCE
    }

    /// Whether the pattern is one of maps A, B and C.
    pub fn uses_pattern(&self) -> bool {
        is_general_map(self.pattern)
    }

    /// Whether the mask map counts as used: only when enabled.
    pub fn uses_mask(&self) -> bool {
        self.mask == MASK_ENABLED
    }

    /// The sign of X: octant bit 2 is negative X.
    pub fn x_sign(&self) -> i64 {
        sign(self.octant & 0b100 != 0)
    }

    /// The sign of Y: octant bit 1 is negative Y.
    pub fn y_sign(&self) -> i64 {
        sign(self.octant & 0b010 != 0)
    }

    /// Octant bit 0 is Y major.
    pub fn is_y_major(&self) -> bool {
        self.octant & 0b001 != 0
    }
}

/// Whether a map field names map A, B or C.
pub fn is_general_map(field: u32) -> bool {
    matches!(field, 1..=3)
}

fn sign(is_negative: bool) -> i64 {
    if is_negative {
        -1
    } else {
        1
    }
}
