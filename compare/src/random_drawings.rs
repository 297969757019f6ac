//! Random drawings that the start rules accept.

use crate::random::Random;
use crate::writes::{self, Write, MOTOROLA};
use model::codes;
use model::operations::{self, Kind, Operations};
use model::pixels;
use model::Coprocessor;

/// The functions that draw.
pub const FUNCTIONS: [u32; 7] = [
    operations::CODES_READ,
    operations::LINE_READ,
    operations::CODES_WRITE,
    operations::LINE_WRITE,
    operations::PXBLT,
    operations::INVERTING_PXBLT,
    operations::AREA_FILL,
];

/// The most pixels along a map's side.
const MAP_SIDE: u32 = 12;

/// A memory that holds a map of that side with 8 bits.
const LEAST_SIZE: u32 = MAP_SIDE * MAP_SIDE;

/// The fields of the pixel operations that say which maps are used: sources, maps, pattern and mask.
const MAP_FIELDS: u32 = 0xF0FF_F0C0;

/// A drawing as a memory and the writes that set it up, of which the last starts it.
#[derive(Clone, Debug)]
pub struct RandomDrawing {
    /// The memory before the drawing, whose length is the state's size.
    pub memory: Vec<u8>,
    /// The writes to a fresh state, each of which is accepted.
    pub writes: Vec<Write>,
}

/// A random drawing of a function: small maps in any order that may overlap, with every field the start rules accept.
pub fn drawing(random: &mut Random, function: u32) -> RandomDrawing {
    let operations = random_operations(random, function);
    let orders = [(); 4].map(|()| random.pick(&[0, MOTOROLA]));
    of_operations(random, operations, orders)
}

/// One that uses four different maps; bit 0 of the mix makes the destination's order Motorola, bits 1 to 3 the source's, pattern's and mask's.
pub fn drawing_of_four_maps(random: &mut Random, function: u32, mix: u32) -> RandomDrawing {
    let sources = random.pick(&[0b0010, 0b1000, 0b1010]);
    let maps = random.pick(&[0x123, 0x132, 0x213, 0x231, 0x312, 0x321]);
    let fields = sources << 28 | maps << 12 | operations::MASK_ENABLED << 6;
    let operations = random_operations(random, function) & !MAP_FIELDS | fields;

    let used = Operations::of(operations);
    let maps = [used.destination, used.source, used.pattern, 0];
    let mut orders = [0; 4];
    for (bit, map) in maps.into_iter().enumerate() {
        orders[map as usize] = (mix >> bit & 1) * MOTOROLA;
    }
    of_operations(random, operations, orders)
}

/// A random drawing of these operations, with the order bits of M, A, B and C.
fn of_operations(random: &mut Random, operations: u32, orders: [u32; 4]) -> RandomDrawing {
    let size = LEAST_SIZE + random.below(300);
    let memory = (0..size).map(|_| random.word() as u8).collect();
    let mut writes = map_writes(random, &Operations::of(operations), orders, size);
    writes.extend(term_writes(random));
    writes.extend(pixel_writes(random));
    writes.extend(place_writes(random, &Operations::of(operations)));
    writes.push(writes::operations(operations));
    if Operations::of(operations).kind() == Some(Kind::Codes) {
        writes.push(code_write(random));
    }
    RandomDrawing { memory, writes }
}

/// The state and memory of a drawing just started.
pub fn started(drawing: &RandomDrawing) -> (Coprocessor, Vec<u8>) {
    let (mut coprocessor, _) = Coprocessor::fresh(drawing.memory.len() as u32);
    for (offset, length, value) in &drawing.writes {
        coprocessor.write(*offset, *length, *value);
    }
    (coprocessor, drawing.memory.clone())
}

/// Pixel operations of a function; what refusal 5 does not look at may hold anything.
fn random_operations(random: &mut Random, function: u32) -> u32 {
    let sources = [operations::COLOUR, operations::SOURCE_MAP];
    let (patterns, octants): (&[u32], u32) = match function {
        operations::AREA_FILL => (&[1, 2, 3], 4),
        _ => (&[1, 2, 3, 8, 9], 8),
    };
    let fields = function << 24
        | random.pick(&sources) << 30
        | random.pick(&sources) << 28
        | random.pick(&[1, 2, 3]) << 16
        | random.pick(patterns) << 12
        | random.below(3) << 6
        | random.below(4) << 4
        | random.below(octants);
    let unused = random.word() & 0x0000_0F08;
    let source = if Operations::of(fields).uses_source() {
        random.pick(&[1, 2, 3])
    } else {
        random.below(16)
    };
    fields | unused | source << 20
}

/// Writes for four small maps; those used have pixel codes that go together and lie in the memory.
fn map_writes(
    random: &mut Random,
    operations: &Operations,
    orders: [u32; 4],
    size: u32,
) -> Vec<Write> {
    let mut writes = Vec::new();
    let formats = pixel_codes(random, operations).into_iter().zip(orders);
    for (index, (code, order)) in (0..).zip(formats) {
        let (width, height) = (side(random), side(random));
        let needed = pixels::bytes_needed(width, height, 1 << code) as u32;
        let base = random.below(size - needed + 1);
        let (base, format) = if is_used(operations, index) || random.once_in(2) {
            (base, code | order)
        } else {
            (random.word(), random.below(16))
        };
        writes.extend(writes::map(
            index,
            base,
            (width.into(), height.into()),
            format,
        ));
    }
    writes.push((0x12, 1, random.below(4)));
    writes
}

/// The pixels along a side, more often many than few.
fn side(random: &mut Random) -> u32 {
    1 + random.below(MAP_SIDE).max(random.below(MAP_SIDE))
}

/// Whether the operations use the map of an index.
fn is_used(operations: &Operations, index: u32) -> bool {
    operations.destination == index
        || (operations.uses_source() && operations.source == index)
        || (operations.uses_pattern() && operations.pattern == index)
        || (operations.uses_mask() && index == 0)
}

/// Pixel codes of M, A, B and C: source as colour has the destination's, and the mask and pattern have 1 bit.
fn pixel_codes(random: &mut Random, operations: &Operations) -> [u32; 4] {
    let mut codes = [0; 4];
    for code in &mut codes[1..] {
        *code = random.below(4);
    }
    let [pattern, destination, source] = [
        operations.pattern,
        operations.destination,
        operations.source,
    ]
    .map(|map| map as usize);
    if operations.uses_source_as_colour() {
        codes[source] = codes[destination];
    }
    if operations.uses_pattern() {
        let is_shared = pattern == destination || pattern == source;
        if is_shared && operations.uses_source_as_colour() {
            codes[source] = 0;
            codes[destination] = 0;
        }
        codes[pattern] = 0;
    }
    codes
}

/// Writes of E, K1, K2 and dimensions.
fn term_writes(random: &mut Random) -> Vec<Write> {
    let reach = random.pick(&[8, 40, 8_191]) as i32;
    let mut writes: Vec<Write> = [0x20, 0x24, 0x28]
        .into_iter()
        .map(|offset| (offset, 4, random.between(-reach, reach) as u32))
        .collect();
    writes.push((0x60, 2, random.below(20)));
    writes.push((0x62, 2, random.below(8)));
    writes
}

/// Writes of mixes, compare, plane mask, carry mask and colours.
fn pixel_writes(random: &mut Random) -> Vec<Write> {
    let (any_condition, any_planes) = (random.below(8), random.word());
    let mut writes = vec![
        (0x48, 1, random.below(0x16)),
        (0x49, 1, random.below(0x16)),
        (0x4A, 1, random.pick(&[4, 4, 4, any_condition])),
        (0x50, 4, random.pick(&[u32::MAX, u32::MAX, any_planes])),
    ];
    for offset in [0x4C, 0x54, 0x58, 0x5C] {
        writes.push((offset, 4, random.word()));
    }
    writes
}

/// Writes of the mask origin and of the source, pattern and destination pointers; an area boundary is often left of its map.
fn place_writes(random: &mut Random, operations: &Operations) -> Vec<Write> {
    let mut writes = vec![(0x6C, 2, random.below(3)), (0x6E, 2, random.below(3))];
    for offset in [0x70, 0x72, 0x74, 0x76] {
        let limit = random.pick(&[12, 4_096]);
        writes.push((offset, 2, random.below(limit)));
    }
    let leftmost = if operations.draws_boundary() { -6 } else { -1 };
    for (offset, first) in [(0x78, leftmost), (0x7A, -1)] {
        let pointer = match random.below(32) {
            0 => random.between(6_138, 6_143),
            1 => random.between(-2_048, -2_043),
            _ => random.between(first, 6),
        };
        writes.push((offset, 2, pointer as u32));
    }
    writes
}

/// A write of 1, 2 or 4 codes, most of which draw.
fn code_write(random: &mut Random) -> Write {
    let length = random.pick(&[1, 2, 4]);
    let codes = (0..4).fold(0, |codes, _| {
        let code = match random.below(12) {
            0 => u32::from(codes::STOP),
            1 | 2 => random.below(0x100),
            _ => random.below(0x100) | 0x10,
        };
        codes << 8 | code
    });
    writes::codes(length, codes)
}
