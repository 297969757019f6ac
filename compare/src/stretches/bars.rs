//! What keeps all positions of a drawing from being taken but one by one.

use super::rule::takes_source;
use model::operations::{self, Kind};
use model::Registers;

/// The largest dimension of a row that is not taken in stretches, which has three pixels.
const NARROW: u16 = 2;

/// The compare condition that never holds, and the last of the logical mixes.
const NEVER: u8 = 4;
const LAST_LOGICAL: u8 = 0xF;

/// The only pixels of a destination that are drawn by a pattern map in stretches.
const PATTERNED_BITS: u32 = 8;

/// Why all positions of a drawing are done one by one.
#[derive(Clone, Copy, Debug, PartialEq, Eq)]
pub enum Bar {
    Fill,
    ReadForm,
    NarrowRow,
    /// Made from the source, or any in a line or in codes.
    Pattern,
    /// Pixels that are too small under a pattern map.
    Bits,
    /// The source map as a colour, under a pattern map, in a line or in codes.
    Source,
    MaskMap,
    Compare,
    Arithmetic,
    /// An arithmetic mix of the background, under a pattern map.
    Background,
    /// 11, or any but 00 in a line or in codes.
    Mode,
    Format,
}

/// Those of blocks without a pattern map, and of fills.
pub const OF_BLOCKS: [Bar; 8] = [
    Bar::Fill,
    Bar::NarrowRow,
    Bar::Pattern,
    Bar::MaskMap,
    Bar::Compare,
    Bar::Arithmetic,
    Bar::Mode,
    Bar::Format,
];

/// Those of blocks with a pattern map.
pub const OF_PATTERNS: [Bar; 8] = [
    Bar::NarrowRow,
    Bar::Bits,
    Bar::Source,
    Bar::MaskMap,
    Bar::Compare,
    Bar::Arithmetic,
    Bar::Background,
    Bar::Mode,
];

/// Those of lines and codes.
pub const OF_STROKES: [Bar; 7] = [
    Bar::ReadForm,
    Bar::Pattern,
    Bar::Source,
    Bar::MaskMap,
    Bar::Compare,
    Bar::Arithmetic,
    Bar::Mode,
];

impl Bar {
    pub fn name(&self) -> &'static str {
        match self {
            Bar::Fill => "a fill",
            Bar::ReadForm => "a read form",
            Bar::NarrowRow => "a row of 1 to 3 pixels",
            Bar::Pattern => "a pattern",
            Bar::Bits => "pixels of 1 to 4 bits",
            Bar::Source => "a source",
            Bar::MaskMap => "a mask map",
            Bar::Compare => "a compare condition",
            Bar::Arithmetic => "an arithmetic mix",
            Bar::Background => "an arithmetic mix of the background",
            Bar::Mode => "the drawing mode",
            Bar::Format => "a source of another format",
        }
    }
}

/// What keeps the drawing of these registers from having stretches, if anything does.
pub fn bar(registers: &Registers) -> Option<Bar> {
    let fields = registers.fields();
    let [from, to] = [fields.source, fields.destination].map(|map| registers.map(map));
    let is_block = fields.kind() == Some(Kind::Block);
    let is_stroke = is_stroke(registers);
    let has_map = is_block && fields.uses_pattern();
    let has_pattern = fields.pattern != operations::PATTERN_FOREGROUND;
    let has_mode = match is_stroke {
        true => fields.drawing_mode != 0,
        false => fields.drawing_mode == operations::AREA_BOUNDARY,
    };
    let is_source = fields.uses_source_as_colour() && (has_map || is_stroke);
    let is_arithmetic = |mix: u8| mix > LAST_LOGICAL;
    let bars = [
        (Bar::Fill, !is_block && !is_stroke),
        (Bar::ReadForm, fields.is_read_form()),
        (Bar::NarrowRow, is_block && registers.dimension_1 <= NARROW),
        (Bar::Pattern, has_pattern && !has_map),
        (Bar::Bits, has_map && to.bits() != PATTERNED_BITS),
        (Bar::Source, is_source),
        (Bar::MaskMap, fields.mask == operations::MASK_ENABLED),
        (Bar::Compare, registers.condition != NEVER),
        (Bar::Arithmetic, is_arithmetic(registers.foreground_mix)),
        (
            Bar::Background,
            has_map && is_arithmetic(registers.background_mix),
        ),
        (Bar::Mode, has_mode),
        (
            Bar::Format,
            takes_source(registers) && from.format != to.format,
        ),
    ];
    let met = bars.into_iter().find(|(_, is_met)| *is_met);
    met.map(|(bar, _)| bar)
}

/// Whether the registers draw a line or codes.
pub fn is_stroke(registers: &Registers) -> bool {
    matches!(registers.fields().kind(), Some(Kind::Line | Kind::Codes))
}
