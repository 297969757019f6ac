//! A pixel that reaches beyond the memory: the position that would read or write it fails loudly.
//!
//! The rules of a start, of a load and of refusal 10 leave no such pixel, and the test of every one bears witness to that.

use crate::map::Map;
use crate::pixels;
use std::fmt;

/// What a position takes the pixel's map for.
#[derive(Clone, Copy, Debug)]
#[allow(missing_docs)]
pub enum Role {
    Source,
    Pattern,
    Mask,
    Destination,
}

/// The pixel of a map.
pub(crate) fn read(role: Role, map: &Map, place: (u32, u32), memory: &[u8]) -> u32 {
    must_lie_within(role, map, place, memory);
    pixels::get(memory, &map.layout(), place)
}

/// Makes the destination's pixel the value.
pub(crate) fn write(map: &Map, place: (u32, u32), memory: &mut [u8], value: u32) {
    must_lie_within(Role::Destination, map, place, memory);
    pixels::put(memory, &map.layout(), place, value);
}

/// Panics where the pixel of a map lies beyond the memory.
fn must_lie_within(role: Role, map: &Map, place: (u32, u32), memory: &[u8]) {
    if !pixels::lies_within(memory.len(), &map.layout(), place) {
        fail(role, place, memory.len());
    }
}

/// Panics, naming the pixel and the bytes of the memory.
#[cold]
#[inline(never)]
pub fn fail(role: Role, (x, y): (u32, u32), memory_length: usize) -> ! {
    panic!("the {role} pixel ({x}, {y}) reaches beyond a memory of {memory_length} bytes")
}

impl fmt::Display for Role {
    fn fmt(&self, text: &mut fmt::Formatter) -> fmt::Result {
        text.write_str(match self {
            Role::Source => "source",
            Role::Pattern => "pattern",
            Role::Mask => "mask",
            Role::Destination => "destination",
        })
    }
}

#[cfg(test)]
mod tests {
    use super::*;
    use crate::Coprocessor;

    const MASK: u32 = 0;
    const DESTINATION: u32 = 1;
    const SOURCE: u32 = 2;
    const PATTERN: u32 = 3;

    const BITS_1: u32 = 0;
    const BITS_8: u32 = 3;

    /// The bytes of the state's memory, and of the one that is lent instead.
    const SIZE: u32 = 32;
    const LENT: usize = 16;

    /// Two rows of 8 pixels in every map; only one map goes on behind the memory that is lent.
    fn started(reaching: u32) -> Coprocessor {
        let (mut coprocessor, _) = Coprocessor::fresh(SIZE);
        let mut write = |offset, length, value| {
            assert_eq!(coprocessor.write(offset, length, value), 0);
        };
        for (map, format, late) in [
            (MASK, BITS_1, 15),
            (DESTINATION, BITS_8, 13),
            (SOURCE, BITS_8, 13),
            (PATTERN, BITS_1, 15),
        ] {
            write(0x12, 1, map);
            write(0x14, 4, if map == reaching { late } else { 0 });
            write(0x18, 4, 0x0001_0007);
            write(0x1C, 1, format);
        }
        write(0x48, 1, 0x03);
        write(0x4A, 1, 4);
        write(0x50, 4, 0xFF);
        write(0x60, 4, 0x0001_0007);
        write(0x7C, 4, 0x2821_3080);
        coprocessor
    }

    /// A run refuses the memory with 9, so only the loop inside it can be lent one that is too short.
    fn draw(reaching: u32) {
        started(reaching).draw(&mut [0xFF; LENT], u32::MAX);
    }

    #[test]
    #[should_panic(expected = "the destination pixel (5, 0) reaches beyond a memory of 5 bytes")]
    fn a_write_tests_its_pixel_though_a_read_came_before() {
        let row = Map {
            base: 0,
            width: 7,
            height: 0,
            format: 3,
        };
        write(&row, (5, 0), &mut [0; 5], 1);
    }

    #[test]
    #[should_panic(expected = "the source pixel (3, 0) reaches beyond a memory of 16 bytes")]
    fn a_source_pixel_beyond_fails_loudly() {
        draw(SOURCE);
    }

    #[test]
    #[should_panic(expected = "the pattern pixel (0, 1) reaches beyond a memory of 16 bytes")]
    fn a_pattern_pixel_beyond_fails_loudly() {
        draw(PATTERN);
    }

    #[test]
    #[should_panic(expected = "the mask pixel (0, 1) reaches beyond a memory of 16 bytes")]
    fn a_mask_pixel_beyond_fails_loudly() {
        draw(MASK);
    }

    #[test]
    #[should_panic(expected = "the destination pixel (3, 0) reaches beyond a memory of 16 bytes")]
    fn a_destination_pixel_beyond_fails_loudly() {
        draw(DESTINATION);
    }
}
