//! The start rules and what an accepted start does (01, Registers; 01, Numbers a call answers with; 01, Maps and pointers).

use crate::circle;
use crate::drawing::Drawing;
use crate::map::Map;
use crate::mixes::LAST_MIX;
use crate::moves;
use crate::operations::{self, Kind, Operations};
use crate::refusals::Refusal;
use crate::registers::{Registers, OPERATIONS_START, STEPS_START};

/// The kind of drawing that a write starts, from the registers after it.
///
/// A write covering 7F starts the stored function except draw and step; one covering 2F starts draw and step if stored.
pub(crate) fn started(registers: &Registers, offset: u32, length: u32) -> Option<Kind> {
    let touched = offset..offset + length;
    let kind = registers.fields().kind()?;
    let starting_byte = match kind {
        Kind::Line | Kind::Block | Kind::Fill => OPERATIONS_START,
        Kind::Codes => STEPS_START,
    };
    touched.contains(&starting_byte).then_some(kind)
}

/// The lowest of refusals 5 to 8 that the registers of a function that draws meet in a memory of `size` bytes.
pub fn check(registers: &Registers, size: u32) -> Result<(), Refusal> {
    let operations = registers.fields();
    if !fields_are_accepted(&operations) {
        Err(Refusal::Field)
    } else if registers.foreground_mix > LAST_MIX || registers.background_mix > LAST_MIX {
        Err(Refusal::Mix)
    } else if !formats_are_accepted(registers, &operations) {
        Err(Refusal::Format)
    } else if used_maps(registers, &operations).any(|map| map.end() > u64::from(size)) {
        Err(Refusal::End)
    } else {
        Ok(())
    }
}

/// Refusal 5, in the paper's order; 02, 102: a fill scans a pattern map, from left to right.
fn fields_are_accepted(operations: &Operations) -> bool {
    let is_source = |field| matches!(field, operations::COLOUR | operations::SOURCE_MAP);
    let has_pattern = matches!(
        operations.pattern,
        operations::PATTERN_FOREGROUND | operations::PATTERN_FROM_SOURCE
    ) || operations.uses_pattern();
    let can_be_scanned = operations.uses_pattern() && operations.x_sign() > 0;

    is_source(operations.foreground_source)
        && is_source(operations.background_source)
        && operations::is_general_map(operations.destination)
        && has_pattern
        && operations.mask != operations::MASK_RESERVED
        && (!operations.uses_source() || operations::is_general_map(operations.source))
        && (operations.kind() != Some(Kind::Fill) || can_be_scanned)
}

/// Refusal 7, clause by clause; 02, 101: the order of a map's pixels gives none.
fn formats_are_accepted(registers: &Registers, operations: &Operations) -> bool {
    let source = registers.map(operations.source);
    let destination = registers.map(operations.destination);
    let pattern = registers.map(operations.pattern);

    used_maps(registers, operations).all(|map| map.pixel_code() <= 3)
        && (!operations.uses_source_as_colour() || source.bits() == destination.bits())
        && (!operations.uses_pattern() || pattern.bits() == 1)
        && (!operations.uses_mask() || registers.mask_map().bits() == 1)
}

/// The maps that the operations use.
fn used_maps<'a>(
    registers: &'a Registers,
    operations: &Operations,
) -> impl Iterator<Item = &'a Map> {
    let mut used = vec![registers.map(operations.destination)];
    if operations.uses_source() {
        used.push(registers.map(operations.source));
    }
    if operations.uses_pattern() {
        used.push(registers.map(operations.pattern));
    }
    if operations.uses_mask() {
        used.push(registers.mask_map());
    }
    used.into_iter()
}

/// Used source and pattern pointers become remainders by their map's size; unused ones stay.
pub fn reduce_pointers(registers: &mut Registers) {
    let operations = registers.fields();
    if operations.uses_source() {
        let map = *registers.map(operations.source);
        registers.source_x = remainder(registers.source_x, map.width);
        registers.source_y = remainder(registers.source_y, map.height);
    }
    if operations.uses_pattern() {
        let map = *registers.map(operations.pattern);
        registers.pattern_x = remainder(registers.pattern_x, map.width);
        registers.pattern_y = remainder(registers.pattern_y, map.height);
    }
}

/// Whether used source and pattern pointers lie in their maps, so that no start would change them.
pub fn pointers_lie_in_maps(registers: &Registers) -> bool {
    let mut started = registers.clone();
    reduce_pointers(&mut started);
    started == *registers
}

/// The drawing in hand after an accepted start by a write of `length` bytes.
pub(crate) fn first(registers: &Registers, kind: Kind, length: u32) -> Drawing {
    match kind {
        Kind::Line => Drawing::Line {
            done: 0,
            rose: false,
        },
        Kind::Block => Drawing::Block { column: 0, row: 0 },
        Kind::Fill => Drawing::Fill {
            column: 0,
            row: 0,
            inside: false,
        },
        Kind::Codes => moves::passage(registers, length as u8, 0),
    }
}

fn remainder(pointer: u16, side_register: u16) -> u16 {
    circle::side(side_register).reduce(i64::from(pointer)) as u16
}
