//! Refusal 10 on a record, asked of its fields (01, State image).

use model::codes::{self, Code};
use model::coprocessor::{is_within_limit, Coprocessor};
use model::drawing::Drawing;
use model::map::Map;
use model::mixes::LAST_MIX;
use model::operations::{self, Kind, Operations};
use model::registers::Registers;

/// The largest number of 12 bits.
const LAST_OF_12_BITS: u16 = 0xFFF;

/// Whether the record is the one that its own image loads to.
pub(super) fn is_valid(coprocessor: &Coprocessor) -> bool {
    let registers = &coprocessor.registers;
    is_within_limit(coprocessor.size)
        && is_reduced(registers)
        && (!coprocessor.drawing.is_unfinished()
            || goes_on(registers, coprocessor.size, &coprocessor.drawing))
}

/// Whether every reduction holds.
fn is_reduced(registers: &Registers) -> bool {
    let short = [
        registers.dimension_1,
        registers.dimension_2,
        registers.mask_origin_x,
        registers.mask_origin_y,
        registers.source_x,
        registers.source_y,
        registers.pattern_x,
        registers.pattern_y,
    ];
    let is_map_reduced = |map: &Map| map.width | map.height <= LAST_OF_12_BITS && map.format <= 0xF;
    let is_term = |term: &i32| (-8_192..=8_191).contains(term);
    let is_pointer = |pointer: &i16| (-2_048..=6_143).contains(pointer);
    registers.index <= 3
        && registers.condition <= 7
        && short.iter().fold(0, |all, number| all | number) <= LAST_OF_12_BITS
        && registers.maps.iter().all(is_map_reduced)
        && [registers.e, registers.k1, registers.k2]
            .iter()
            .all(is_term)
        && [registers.destination_x, registers.destination_y]
            .iter()
            .all(is_pointer)
}

/// Whether the drawing is of the stored function, the start rules hold, and a position remains at the counters.
fn goes_on(registers: &Registers, size: u32, drawing: &Drawing) -> bool {
    let fields = registers.fields();
    let has_position = match (fields.kind(), *drawing) {
        (Some(Kind::Line), Drawing::Line { done, rose }) => {
            let may_look_back = done > 0 && fields.drawing_mode == operations::AREA_BOUNDARY;
            done <= registers.dimension_1 && (!rose || may_look_back)
        }
        (Some(Kind::Block), Drawing::Block { column, row }) => {
            column <= registers.dimension_1 && row <= registers.dimension_2
        }
        (
            Some(Kind::Fill),
            Drawing::Fill {
                column,
                row,
                inside,
            },
        ) => {
            let is_left = column <= registers.dimension_1 && row <= registers.dimension_2;
            is_left && (!inside || column > 0)
        }
        (Some(Kind::Codes), Drawing::Codes { count, code, done }) => {
            has_code(registers.steps, count, code, done)
        }
        _ => false,
    };
    has_position && starts(registers, &fields, size) && pointers_lie_in_maps(registers, &fields)
}

/// Whether codes number 1, 2 or 4, none up to the current one is 00, and that one has a position left.
fn has_code(steps: u32, count: u8, code: u16, done: u16) -> bool {
    if !matches!(count, 1 | 2 | 4) || code >= u16::from(count) {
        return false;
    }
    let first = 4 - usize::from(count);
    let current = first + usize::from(code);
    let bytes = steps.to_le_bytes();
    bytes[first..=current]
        .iter()
        .all(|byte| *byte != codes::STOP)
        && done <= Code::of(bytes[current]).steps
}

/// Whether none of refusals 5 to 8 is met.
fn starts(registers: &Registers, fields: &Operations, size: u32) -> bool {
    let destination = registers.map(fields.destination);
    let source = registers.map(fields.source);
    let is_source = |field| matches!(field, operations::COLOUR | operations::SOURCE_MAP);
    let fits = |map: &Map| map.pixel_code() <= 3 && map.end() <= u64::from(size);
    let is_bitmap = |map: &Map| map.pixel_code() == 0 && fits(map);
    let is_fill = fields.kind() == Some(Kind::Fill);

    is_source(fields.foreground_source)
        && is_source(fields.background_source)
        && operations::is_general_map(fields.destination)
        && (fields.uses_pattern() || !is_fill && matches!(fields.pattern, 8 | 9))
        && (fields.octant & 0b100 == 0 || !is_fill)
        && fields.mask != operations::MASK_RESERVED
        && registers.foreground_mix.max(registers.background_mix) <= LAST_MIX
        && fits(destination)
        && (!fields.uses_source() || operations::is_general_map(fields.source) && fits(source))
        && (!fields.uses_source_as_colour() || source.pixel_code() == destination.pixel_code())
        && (!fields.uses_pattern() || is_bitmap(registers.map(fields.pattern)))
        && (!fields.uses_mask() || is_bitmap(registers.mask_map()))
}

/// Whether used source and pattern pointers lie in their maps.
fn pointers_lie_in_maps(registers: &Registers, fields: &Operations) -> bool {
    let lies_in = |map: &Map, x: u16, y: u16| x <= map.width && y <= map.height;
    let (source, pattern) = (registers.map(fields.source), registers.map(fields.pattern));
    (!fields.uses_source() || lies_in(source, registers.source_x, registers.source_y))
        && (!fields.uses_pattern() || lies_in(pattern, registers.pattern_x, registers.pattern_y))
}
