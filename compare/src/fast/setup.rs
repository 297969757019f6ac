//! What a drawing does not change, decoded once.

use super::inks::Ink;
use super::surfaces::Surface;
use model::coprocessor::Coprocessor;
use model::operations::{self, Kind, Operations};
use model::reach::Role;
use model::registers::Registers;

/// What picks the ink.
pub(super) enum Pattern {
    Foreground,
    FromSource,
    Map(Surface),
}

/// What the mask keeps.
pub(super) enum Mask {
    Off,
    Boundary(Surface),
    Enabled(Surface),
}

/// The compare condition, as the numbers for which it is true: so many from the first on, round the end of 32 bits.
pub(super) struct Compare {
    planes: u32,
    first: u32,
    count: u32,
}

/// Which positions of a line or code are nulled.
#[derive(Clone, Copy)]
pub(super) enum Null {
    Nothing,
    First,
    Last,
    /// All but those at which the area boundary leaves a row downwards or has come into it upwards.
    Boundary,
}

/// The set-up of a drawing in hand.
pub(super) struct Setup {
    pub(super) kind: Kind,
    pub(super) source: Option<Surface>,
    pub(super) pattern: Pattern,
    pub(super) destination: Surface,
    pub(super) mask: Mask,
    pub(super) origin: (u32, u32),
    /// Background and foreground, chosen by the pattern pixel.
    pub(super) inks: [Ink; 2],
    pub(super) compare: Compare,
    pub(super) null: Null,
    /// K1 and K2.
    pub(super) terms: (i32, i32),
    /// Dimension 1 and 2.
    pub(super) dimensions: (u32, u32),
    /// The signs of X and Y.
    pub(super) signs: (i32, i32),
    pub(super) is_y_major: bool,
    pub(super) is_read_form: bool,
    pub(super) is_inverting: bool,
    pub(super) steps: u32,
}

impl Setup {
    /// The set-up of a valid record, if it has a drawing in hand.
    pub(super) fn of(coprocessor: &Coprocessor) -> Option<Setup> {
        if !coprocessor.drawing.is_unfinished() {
            return None;
        }
        let registers = &coprocessor.registers;
        let fields = registers.fields();
        let kind = fields.kind()?;
        let destination = Surface::of(Role::Destination, registers.map(fields.destination));
        let ones = destination.ones();
        Some(Setup {
            kind,
            source: fields
                .uses_source()
                .then(|| Surface::of(Role::Source, registers.map(fields.source))),
            pattern: pattern(registers, &fields),
            mask: mask(registers, &fields),
            origin: (
                registers.mask_origin_x.into(),
                registers.mask_origin_y.into(),
            ),
            inks: inks(registers, &fields, ones),
            compare: Compare::of(registers, ones),
            null: null(&fields),
            terms: (registers.k1, registers.k2),
            dimensions: (registers.dimension_1.into(), registers.dimension_2.into()),
            signs: (fields.x_sign() as i32, fields.y_sign() as i32),
            is_y_major: fields.is_y_major(),
            is_read_form: fields.is_read_form(),
            is_inverting: fields.function == operations::INVERTING_PXBLT,
            steps: registers.steps,
            destination,
        })
    }
}

impl Compare {
    fn of(registers: &Registers, ones: u32) -> Compare {
        let planes = registers.plane_mask & ones;
        let value = registers.compare_value & planes;
        let (first, count) = match registers.condition {
            0 => (0, ones + 1),
            1 => (value + 1, ones),
            2 => (value, 1),
            3 => (0, value),
            4 => (0, 0),
            5 => (value, ones + 1),
            6 => (value + 1, u32::MAX),
            _ => (0, value + 1),
        };
        Compare {
            planes,
            first,
            count,
        }
    }

    /// Whether the condition is true of the destination (docs/DIFFERENCES.md, D1).
    #[inline(always)]
    pub(super) fn holds(&self, destination: u32) -> bool {
        (destination & self.planes).wrapping_sub(self.first) < self.count
    }
}

fn pattern(registers: &Registers, fields: &Operations) -> Pattern {
    match fields.pattern {
        operations::PATTERN_FOREGROUND => Pattern::Foreground,
        operations::PATTERN_FROM_SOURCE => Pattern::FromSource,
        map => Pattern::Map(Surface::of(Role::Pattern, registers.map(map))),
    }
}

fn mask(registers: &Registers, fields: &Operations) -> Mask {
    let surface = Surface::of(Role::Mask, registers.mask_map());
    match fields.mask {
        operations::MASK_BOUNDARY => Mask::Boundary(surface),
        operations::MASK_ENABLED => Mask::Enabled(surface),
        _ => Mask::Off,
    }
}

fn inks(registers: &Registers, fields: &Operations, ones: u32) -> [Ink; 2] {
    let planes = registers.plane_mask & ones;
    let ink = |mix, field, colour| {
        let colour = (field != operations::SOURCE_MAP).then_some(colour);
        Ink::of(mix, planes, ones, colour)
    };
    [
        ink(
            registers.background_mix,
            fields.background_source,
            registers.background_colour,
        ),
        ink(
            registers.foreground_mix,
            fields.foreground_source,
            registers.foreground_colour,
        ),
    ]
}

fn null(fields: &Operations) -> Null {
    match (fields.kind(), fields.drawing_mode) {
        (Some(Kind::Block | Kind::Fill), _) => Null::Nothing,
        (_, operations::FIRST_NULL) => Null::First,
        (_, operations::LAST_NULL) => Null::Last,
        (_, operations::AREA_BOUNDARY) => Null::Boundary,
        _ => Null::Nothing,
    }
}
