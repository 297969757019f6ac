//! Random set-ups: states with all registers for a drawing, and the write that then starts it.

use crate::random::Random;
use crate::random_drawings::{self, FUNCTIONS};
use crate::writes::Write;
use model::coprocessor::SIZE_LIMIT;
use model::image;
use model::operations::Operations;
use model::pixels;
use model::{Coprocessor, Map};

/// A state that is all set up for a drawing, and the write that then starts it.
pub fn set_up(random: &mut Random) -> (Coprocessor, Write) {
    let function = random.pick(&FUNCTIONS);
    let mut drawing = random_drawings::drawing(random, function);
    let start = drawing.writes.pop().unwrap_or_default();
    let mut state = after_writes(drawing.memory.len() as u32, &drawing.writes);
    let operations = Operations::of(match start {
        (0x7C, _, value) => value,
        _ => state.registers.operations,
    });
    let is_of_one_bit = state.registers.map(operations.destination).bits() == 1;
    if is_of_one_bit && random.once_in(2) {
        // Shared maps make half of the destinations 1 bit, which is too many.
        return set_up(random);
    }
    if !random.once_in(4) {
        spread(random, &mut state, &operations);
    }
    (state, start)
}

/// A size of memory, most often small.
pub fn size(random: &mut Random) -> u32 {
    match random.below(256) {
        0 => SIZE_LIMIT,
        1 => 1 + random.below(SIZE_LIMIT),
        2..=99 => 16 + random.below(240),
        _ => 16 + random.below(4_081),
    }
}

/// The state after writes of reduced values that start nothing, by laying their bytes into an image, which is quick.
fn after_writes(size: u32, writes: &[Write]) -> Coprocessor {
    let (fresh, _) = Coprocessor::fresh(size);
    let mut bytes = image::of(&fresh);
    for (offset, length, value) in writes {
        let map = usize::from(bytes[image::MAP_INDEX_AT]);
        let first = image::place(map, *offset).expect("a set-up writes listed registers");
        let length = *length as usize;
        bytes[first..first + length].copy_from_slice(&value.to_le_bytes()[..length]);
    }
    image::loaded(&bytes).expect("a set-up writes reduced values")
}

/// Gives the state another size, maps of other sides and places in it, and another part of the destination to draw.
fn spread(random: &mut Random, state: &mut Coprocessor, operations: &Operations) {
    state.size = size(random);
    let registers = &mut state.registers;
    let maps = registers.maps.iter_mut();
    for map in maps.filter(|map| map.pixel_code() <= 3) {
        place(random, map, state.size);
    }
    let (map, mask) = (*registers.map(operations.destination), registers.maps[0]);
    let x = match operations.draws_boundary() && random.once_in(3) {
        true => random.between(-20, 2) as i16,
        false => destination(random, map.width),
    };
    let y = destination(random, map.height);
    (registers.destination_x, registers.destination_y) = (x, y);
    registers.mask_origin_x = origin(random, x, mask.width);
    registers.mask_origin_y = origin(random, y, mask.height);
    registers.dimension_1 = dimension(random, map.width);
    registers.dimension_2 = dimension(random, map.height);
}

/// A destination pointer, most often inside its map.
pub fn destination(random: &mut Random, last: u16) -> i16 {
    let last = i32::from(last);
    let pointer = match random.below(8) {
        0 => random.between(-2, last + 2),
        _ => random.between(0, last),
    };
    pointer as i16
}

/// A dimension, most often not much longer than the destination's side.
fn dimension(random: &mut Random, last: u16) -> u16 {
    match random.below(8) {
        0 => side(random, 4_096),
        _ => side(random, u32::from(last) + 3),
    }
}

/// A mask origin, most often so that the destination lies in the mask.
fn origin(random: &mut Random, destination: i16, last: u16) -> u16 {
    match random.below(8) {
        0 => random.below(u32::from(last) + 2) as u16,
        _ => {
            let place = random.below(u32::from(last) + 1) as i16;
            destination.saturating_sub(place).max(0) as u16
        }
    }
}

/// Puts a map anywhere in the memory, often so that it ends where the memory ends.
fn place(random: &mut Random, map: &mut Map, size: u32) {
    let pixels = size * 8 / map.bits();
    map.width = side(random, pixels);
    map.height = side(random, pixels / map.row_length());
    let needed = pixels::bytes_needed(map.row_length(), map.rows(), map.bits()) as u32;
    let last = size - needed;
    map.base = if random.once_in(3) {
        last
    } else {
        random.below(last + 1)
    };
}

/// A width, height or dimension of at most so many pixels, as its register has it.
fn side(random: &mut Random, most: u32) -> u16 {
    let most = most.min(random.pick(&[4, 20, 20, 20, 70, 70, 4_096]));
    random.below(most) as u16
}
