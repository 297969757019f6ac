//! What becomes of a position (01, One position; 02, 113).

use crate::boundary;
use crate::codes::{self, Code};
use crate::drawing::Drawing;
use crate::map::Map;
use crate::mixes;
use crate::operations::{self, Operations};
use crate::reach::{self, Role};
use crate::registers::Registers;

/// The first of these that is true of a position.
#[derive(Clone, Copy, Debug, PartialEq, Eq)]
pub enum Fate {
    /// Of a move code.
    Moved,
    /// First-null, last-null, or kept back by the area boundary.
    Nulled,
    /// Outside the destination map.
    OutsideMap,
    /// Outside the mask boundary.
    OutsideMask,
    /// On a 0 mask pixel.
    OnZeroMask,
    /// The compare condition is true of the destination.
    Compared,
    /// Written.
    Written,
}

/// What becomes of the position at the counters.
///
/// Mask and destination pixels inside their maps are read first, whatever comes of it; one beyond the memory panics.
pub fn fate(registers: &Registers, drawing: &Drawing, memory: &[u8]) -> Fate {
    let operations = registers.fields();
    let (x, y) = boundary::place(registers);
    let map = registers.map(operations.destination);
    let by_place = match map.pixel_at(x, y) {
        None => Fate::OutsideMap,
        Some(place) => by_mask(registers, &operations, (x, y), memory).unwrap_or_else(|| {
            let destination = reach::read(Role::Destination, map, place, memory);
            if compare_holds(registers, map, destination) {
                Fate::Compared
            } else {
                Fate::Written
            }
        }),
    };
    if is_move_code(registers, drawing) {
        Fate::Moved
    } else if is_nulled(registers, drawing) {
        Fate::Nulled
    } else {
        by_place
    }
}

/// Modes 01 and 10 keep what is outside the mask boundary, edges being inside, and mode 10 what is on a 0 mask pixel.
fn by_mask(
    registers: &Registers,
    operations: &Operations,
    (x, y): (i64, i64),
    memory: &[u8],
) -> Option<Fate> {
    let map = registers.mask_map();
    // docs/DECISIONS.md: the mask pixel is destination - origin.
    let pixel = map.pixel_at(
        x - i64::from(registers.mask_origin_x),
        y - i64::from(registers.mask_origin_y),
    );
    match (operations.mask, pixel) {
        (operations::MASK_BOUNDARY | operations::MASK_ENABLED, None) => Some(Fate::OutsideMask),
        (operations::MASK_ENABLED, Some(place)) => {
            let is_zero = reach::read(Role::Mask, map, place, memory) == 0;
            is_zero.then_some(Fate::OnZeroMask)
        }
        _ => None,
    }
}

/// Whether the compare condition is true of the destination.
fn compare_holds(registers: &Registers, map: &Map, destination: u32) -> bool {
    mixes::holds(
        u32::from(registers.condition),
        map.bits(),
        registers.plane_mask,
        destination,
        registers.compare_value,
    )
}

/// Whether the position is of a move code.
fn is_move_code(registers: &Registers, drawing: &Drawing) -> bool {
    current_code(registers, drawing).is_some_and(|code| !code.draws)
}

/// 01, The functions: the drawing mode holds for each line and each code, and blocks and fills ignore it.
fn is_nulled(registers: &Registers, drawing: &Drawing) -> bool {
    let (done, last) = match *drawing {
        Drawing::Line { done, .. } => (done, registers.dimension_1),
        Drawing::Codes { done, .. } => match current_code(registers, drawing) {
            Some(code) => (done, code.steps),
            None => return false,
        },
        Drawing::Block { .. } | Drawing::Fill { .. } | Drawing::Nothing { .. } => return false,
    };
    match registers.fields().drawing_mode {
        operations::FIRST_NULL => done == 0,
        operations::LAST_NULL => done == last,
        operations::AREA_BOUNDARY => !boundary::draws(registers, drawing),
        _ => false,
    }
}

/// The code that a run of codes is at.
fn current_code(registers: &Registers, drawing: &Drawing) -> Option<Code> {
    match *drawing {
        Drawing::Codes { count, code, .. } => codes::at(registers.steps, count, code),
        _ => None,
    }
}
