//! One position (01, One position).

use crate::boundary;
use crate::drawing::Drawing;
use crate::fates::{self, Fate};
use crate::mixes;
use crate::operations::{self, Operations};
use crate::reach::{self, Role};
use crate::registers::Registers;

/// Whether the position at the counters is in the foreground: pattern 1 picks it, and 0 the background.
///
/// 003:2096: in a fill each 1 turns outside to inside and back, and a position that then is inside is in the foreground.
pub fn is_foreground(registers: &Registers, drawing: &Drawing, memory: &[u8]) -> bool {
    let is_one = pattern_pixel(registers, memory) == 1;
    match *drawing {
        Drawing::Fill { inside, .. } => inside != is_one,
        _ => is_one,
    }
}

/// Draws the position at the counters; all its reads come before its write.
///
/// A pixel beyond the memory panics, before it is read or written.
pub fn draw(registers: &Registers, drawing: &Drawing, is_foreground: bool, memory: &mut [u8]) {
    let operations = registers.fields();
    let source = source_pixel(registers, &operations, memory);
    let (mix, colour) = picked(registers, &operations, is_foreground, source);
    let is_written = fates::fate(registers, drawing, memory) == Fate::Written;

    let map = registers.map(operations.destination);
    let (x, y) = boundary::place(registers);
    if let Some(place) = map.pixel_at(x, y).filter(|_| is_written) {
        let destination = reach::read(Role::Destination, map, place, memory);
        let planes = registers.plane_mask;
        let new = mixes::mix(mix, map.bits(), planes, colour, destination);
        reach::write(map, place, memory, new);
    }
}

/// The picked mix and what it takes as S, of which the low bits count.
fn picked(
    registers: &Registers,
    operations: &Operations,
    is_foreground: bool,
    source: u32,
) -> (u32, u32) {
    let (mix, field, colour) = if is_foreground {
        (
            registers.foreground_mix,
            operations.foreground_source,
            registers.foreground_colour,
        )
    } else {
        (
            registers.background_mix,
            operations.background_source,
            registers.background_colour,
        )
    };
    let is_source_map = field == operations::SOURCE_MAP;
    (u32::from(mix), if is_source_map { source } else { colour })
}

/// The source pixel, or 0 if the source map is not used.
fn source_pixel(registers: &Registers, operations: &Operations, memory: &[u8]) -> u32 {
    if !operations.uses_source() {
        return 0;
    }
    let map = registers.map(operations.source);
    let place = (registers.source_x.into(), registers.source_y.into());
    reach::read(Role::Source, map, place, memory)
}

/// The pattern pixel: code 8 is always 1, and code 9 is 1 where the source pixel is not 0.
fn pattern_pixel(registers: &Registers, memory: &[u8]) -> u32 {
    let operations = registers.fields();
    match operations.pattern {
        operations::PATTERN_FOREGROUND => 1,
        operations::PATTERN_FROM_SOURCE => {
            u32::from(source_pixel(registers, &operations, memory) != 0)
        }
        map => {
            let place = (registers.pattern_x.into(), registers.pattern_y.into());
            reach::read(Role::Pattern, registers.map(map), place, memory)
        }
    }
}
