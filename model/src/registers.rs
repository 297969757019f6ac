//! The register bank (01, Registers).

use crate::circle;
use crate::map::Map;
use crate::operations::Operations;
use crate::refusals::Refusal;

/// Every register as stored; a fresh state has zero in all.
///
/// The types hold every value of a register's bytes, so also values that no reduction leaves.
#[derive(Clone, Debug, Default, PartialEq, Eq)]
#[allow(missing_docs)]
pub struct Registers {
    pub index: u8,
    /// M, A, B and C.
    pub maps: [Map; 4],
    pub e: i32,
    pub k1: i32,
    pub k2: i32,
    pub steps: u32,
    pub foreground_mix: u8,
    pub background_mix: u8,
    pub condition: u8,
    pub compare_value: u32,
    pub plane_mask: u32,
    pub carry_mask: u32,
    pub foreground_colour: u32,
    pub background_colour: u32,
    pub dimension_1: u16,
    pub dimension_2: u16,
    pub mask_origin_x: u16,
    pub mask_origin_y: u16,
    pub source_x: u16,
    pub source_y: u16,
    pub pattern_x: u16,
    pub pattern_y: u16,
    pub destination_x: i16,
    pub destination_y: i16,
    pub operations: u32,
}

/// The name of a listed register; Base to Format are those of the selected map.
#[derive(Clone, Copy, Debug, PartialEq, Eq)]
#[allow(missing_docs)]
#[rustfmt::skip]
pub enum Register {
    MapIndex, Base, Width, Height, Format,
    E, K1, K2, Steps,
    ForegroundMix, BackgroundMix, Condition, CompareValue, PlaneMask, CarryMask,
    ForegroundColour, BackgroundColour, Dimension1, Dimension2,
    MaskOriginX, MaskOriginY, SourceX, SourceY, PatternX, PatternY, DestinationX, DestinationY,
    Operations,
}

/// 01, Registers: offset, bytes and name of every listed register.
pub const LISTED: [(u32, u32, Register); 28] = [
    (0x12, 1, Register::MapIndex),
    (0x14, 4, Register::Base),
    (0x18, 2, Register::Width),
    (0x1A, 2, Register::Height),
    (0x1C, 1, Register::Format),
    (0x20, 4, Register::E),
    (0x24, 4, Register::K1),
    (0x28, 4, Register::K2),
    (0x2C, 4, Register::Steps),
    (0x48, 1, Register::ForegroundMix),
    (0x49, 1, Register::BackgroundMix),
    (0x4A, 1, Register::Condition),
    (0x4C, 4, Register::CompareValue),
    (0x50, 4, Register::PlaneMask),
    (0x54, 4, Register::CarryMask),
    (0x58, 4, Register::ForegroundColour),
    (0x5C, 4, Register::BackgroundColour),
    (0x60, 2, Register::Dimension1),
    (0x62, 2, Register::Dimension2),
    (0x6C, 2, Register::MaskOriginX),
    (0x6E, 2, Register::MaskOriginY),
    (0x70, 2, Register::SourceX),
    (0x72, 2, Register::SourceY),
    (0x74, 2, Register::PatternX),
    (0x76, 2, Register::PatternY),
    (0x78, 2, Register::DestinationX),
    (0x7A, 2, Register::DestinationY),
    (0x7C, 4, Register::Operations),
];

/// The highest offset.
pub const LAST_OFFSET: u32 = 0x7F;

/// The byte whose write starts a line or block: the highest of the pixel operations.
pub const OPERATIONS_START: u32 = 0x7F;

/// The byte whose write starts draw and step: the highest of the direction steps.
pub const STEPS_START: u32 = 0x2F;

/// Refusal 1: a length of 1, 2 or 4, at a multiple of it, at an offset of at most 7F hex.
pub(crate) fn check_place(offset: u32, length: u32) -> Result<(), Refusal> {
    let accepted =
        matches!(length, 1 | 2 | 4) && offset.is_multiple_of(length) && offset <= LAST_OFFSET;
    accepted.then_some(()).ok_or(Refusal::Place)
}

/// Refusal 3: every byte touched is of a listed register.
pub(crate) fn check_listed(offset: u32, length: u32) -> Result<(), Refusal> {
    let accepted = (0..length).all(|i| register_at(offset + i).is_some());
    accepted.then_some(()).ok_or(Refusal::Unlisted)
}

/// The register that holds the byte at `offset`, and which of its bytes that is.
fn register_at(offset: u32) -> Option<(Register, u32)> {
    LISTED
        .iter()
        .find(|(first, bytes, _)| (*first..first + bytes).contains(&offset))
        .map(|(first, _, register)| (*register, offset - first))
}

/// 01, Registers: a register's bytes after its reduction.
fn reduced(register: Register, bytes: u32) -> u32 {
    match register {
        Register::MapIndex => bytes & 0b11,
        Register::Width | Register::Height => bytes & 0xFFF,
        Register::Dimension1 | Register::Dimension2 => bytes & 0xFFF,
        Register::MaskOriginX | Register::MaskOriginY => bytes & 0xFFF,
        Register::SourceX | Register::SourceY => bytes & 0xFFF,
        Register::PatternX | Register::PatternY => bytes & 0xFFF,
        Register::Format => bytes & 0xF,
        Register::Condition => bytes & 0b111,
        Register::E | Register::K1 | Register::K2 => {
            circle::TERMS.reduce(i64::from(bytes)) as i32 as u32
        }
        Register::DestinationX | Register::DestinationY => {
            u32::from(circle::DESTINATION.reduce(i64::from(bytes)) as i16 as u16)
        }
        _ => bytes,
    }
}

impl Registers {
    /// The registers after a write at a listed place: the stored bytes take the new ones, then are reduced.
    pub(crate) fn written(&self, offset: u32, length: u32, value: u32) -> Registers {
        let mut next = self.clone();
        let touched = offset..offset + length;
        for (place, byte) in touched.clone().zip(value.to_le_bytes()) {
            next.take_byte(self.selected(), place, byte);
        }
        for (register, _) in touched.filter_map(register_at) {
            let bytes = reduced(register, next.stored(self.selected(), register));
            next.store(self.selected(), register, bytes);
        }
        next
    }

    /// The value read at a listed place, least significant byte first.
    pub(crate) fn read(&self, offset: u32, length: u32) -> u32 {
        (0..length).fold(0, |value, i| {
            let byte = self.byte(self.selected(), offset + i).unwrap_or(0);
            value | u32::from(byte) << (8 * i)
        })
    }

    /// Whether every reduction holds, in all four maps.
    pub fn are_reduced(&self) -> bool {
        (0..self.maps.len()).all(|map| {
            LISTED.iter().all(|(_, _, register)| {
                let bytes = self.stored(map, *register);
                reduced(*register, bytes) == bytes
            })
        })
    }

    /// The byte at `offset` while `map` is selected, if a register is listed there.
    pub(crate) fn byte(&self, map: usize, offset: u32) -> Option<u8> {
        let (register, place) = register_at(offset)?;
        Some((self.stored(map, register) >> (8 * place)) as u8)
    }

    /// Stores the byte at `offset` while `map` is selected, without a reduction.
    pub fn take_byte(&mut self, map: usize, offset: u32, byte: u8) {
        if let Some((register, place)) = register_at(offset) {
            let others = self.stored(map, register) & !(0xFF << (8 * place));
            self.store(map, register, others | u32::from(byte) << (8 * place));
        }
    }

    /// The fields of the pixel operations.
    pub fn fields(&self) -> Operations {
        Operations::of(self.operations)
    }

    /// The map that a field of the pixel operations names.
    pub fn map(&self, field: u32) -> &Map {
        &self.maps[field as usize % 4]
    }

    /// The mask map, M.
    pub fn mask_map(&self) -> &Map {
        &self.maps[0]
    }

    /// The map that the map index selects.
    fn selected(&self) -> usize {
        usize::from(self.index)
    }

    /// A register's stored bytes as one number, negative ones sign-extended to the register's length.
    fn stored(&self, map: usize, register: Register) -> u32 {
        let map = &self.maps[map % 4];
        match register {
            Register::MapIndex => u32::from(self.index),
            Register::Base => map.base,
            Register::Width => u32::from(map.width),
            Register::Height => u32::from(map.height),
            Register::Format => u32::from(map.format),
            Register::E => self.e as u32,
            Register::K1 => self.k1 as u32,
            Register::K2 => self.k2 as u32,
            Register::Steps => self.steps,
            Register::ForegroundMix => u32::from(self.foreground_mix),
            Register::BackgroundMix => u32::from(self.background_mix),
            Register::Condition => u32::from(self.condition),
            Register::CompareValue => self.compare_value,
            Register::PlaneMask => self.plane_mask,
            Register::CarryMask => self.carry_mask,
            Register::ForegroundColour => self.foreground_colour,
            Register::BackgroundColour => self.background_colour,
            Register::Dimension1 => u32::from(self.dimension_1),
            Register::Dimension2 => u32::from(self.dimension_2),
            Register::MaskOriginX => u32::from(self.mask_origin_x),
            Register::MaskOriginY => u32::from(self.mask_origin_y),
            Register::SourceX => u32::from(self.source_x),
            Register::SourceY => u32::from(self.source_y),
            Register::PatternX => u32::from(self.pattern_x),
            Register::PatternY => u32::from(self.pattern_y),
            Register::DestinationX => u32::from(self.destination_x as u16),
            Register::DestinationY => u32::from(self.destination_y as u16),
            Register::Operations => self.operations,
        }
    }

    /// Takes the low bytes of the number as a register's stored bytes.
    fn store(&mut self, map: usize, register: Register, bytes: u32) {
        let map = &mut self.maps[map % 4];
        match register {
            Register::MapIndex => self.index = bytes as u8,
            Register::Base => map.base = bytes,
            Register::Width => map.width = bytes as u16,
            Register::Height => map.height = bytes as u16,
            Register::Format => map.format = bytes as u8,
            Register::E => self.e = bytes as i32,
            Register::K1 => self.k1 = bytes as i32,
            Register::K2 => self.k2 = bytes as i32,
            Register::Steps => self.steps = bytes,
            Register::ForegroundMix => self.foreground_mix = bytes as u8,
            Register::BackgroundMix => self.background_mix = bytes as u8,
            Register::Condition => self.condition = bytes as u8,
            Register::CompareValue => self.compare_value = bytes,
            Register::PlaneMask => self.plane_mask = bytes,
            Register::CarryMask => self.carry_mask = bytes,
            Register::ForegroundColour => self.foreground_colour = bytes,
            Register::BackgroundColour => self.background_colour = bytes,
            Register::Dimension1 => self.dimension_1 = bytes as u16,
            Register::Dimension2 => self.dimension_2 = bytes as u16,
            Register::MaskOriginX => self.mask_origin_x = bytes as u16,
            Register::MaskOriginY => self.mask_origin_y = bytes as u16,
            Register::SourceX => self.source_x = bytes as u16,
            Register::SourceY => self.source_y = bytes as u16,
            Register::PatternX => self.pattern_x = bytes as u16,
            Register::PatternY => self.pattern_y = bytes as u16,
            Register::DestinationX => self.destination_x = bytes as u16 as i16,
            Register::DestinationY => self.destination_y = bytes as u16 as i16,
            Register::Operations => self.operations = bytes,
        }
    }
}
