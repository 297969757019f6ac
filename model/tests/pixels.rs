//! A pixel in memory (01, Maps and pointers; 02, 101).

use model::pixels::{bytes_needed, get, lies_within, put, start_bit, Layout, Order};
use Order::{Intel, Motorola};

/// The layout of a map at base 0.
fn layout(order: Order, row_length: u32, bits: u32) -> Layout {
    Layout {
        base: 0,
        row_length,
        bits,
        order,
    }
}

/// The first pixels of a map's row.
fn row<const N: usize>(memory: &[u8], layout: Layout, y: u32) -> [u32; N] {
    std::array::from_fn(|x| get(memory, &layout, (x as u32, y)))
}

#[test]
fn a_pixel_starts_at_row_times_length_plus_column_times_size() {
    assert_eq!(start_bit(10, 1, 3, 2), 23);
    assert_eq!(start_bit(10, 2, 3, 2), 46);
    assert_eq!(start_bit(10, 4, 3, 2), 92);
    assert_eq!(start_bit(10, 8, 3, 2), 184);
}

#[test]
fn bytes_are_rounded_up() {
    assert_eq!(bytes_needed(3, 3, 1), 2);
    assert_eq!(bytes_needed(4, 2, 1), 1);
    assert_eq!(bytes_needed(3, 3, 2), 3);
    assert_eq!(bytes_needed(3, 3, 4), 5);
    assert_eq!(bytes_needed(3, 3, 8), 9);
    assert_eq!(bytes_needed(4_096, 4_096, 8), 16_777_216);
}

/// Which pixel each bit of bytes n+0, n+1 and n+2 is of, from bit 7 down to bit 0.
type Pixels = [[u32; 8]; 3];

/// The bits of a pixel, and its row of pixel numbers in a table.
type Row = (u32, Pixels);

/// 003:593-610, Table 4.1, whose columns go from byte n+2 on the left to byte n+0.
const TABLE_4_1: [Row; 4] = [
    (
        1,
        [
            [7, 6, 5, 4, 3, 2, 1, 0],
            [15, 14, 13, 12, 11, 10, 9, 8],
            [23, 22, 21, 20, 19, 18, 17, 16],
        ],
    ),
    (
        2,
        [
            [3, 3, 2, 2, 1, 1, 0, 0],
            [7, 7, 6, 6, 5, 5, 4, 4],
            [11, 11, 10, 10, 9, 9, 8, 8],
        ],
    ),
    (
        4,
        [
            [1, 1, 1, 1, 0, 0, 0, 0],
            [3, 3, 3, 3, 2, 2, 2, 2],
            [5, 5, 5, 5, 4, 4, 4, 4],
        ],
    ),
    (8, [[0; 8], [1; 8], [2; 8]]),
];

/// 003:612-632, Table 4.2, whose columns go from byte n+0 on the left to byte n+2.
const TABLE_4_2: [Row; 4] = [
    (
        1,
        [
            [0, 1, 2, 3, 4, 5, 6, 7],
            [8, 9, 10, 11, 12, 13, 14, 15],
            [16, 17, 18, 19, 20, 21, 22, 23],
        ],
    ),
    (
        2,
        [
            [0, 0, 1, 1, 2, 2, 3, 3],
            [4, 4, 5, 5, 6, 6, 7, 7],
            [8, 8, 9, 9, 10, 10, 11, 11],
        ],
    ),
    (
        4,
        [
            [0, 0, 0, 0, 1, 1, 1, 1],
            [2, 2, 2, 2, 3, 3, 3, 3],
            [4, 4, 4, 4, 5, 5, 5, 5],
        ],
    ),
    (8, [[0; 8], [1; 8], [2; 8]]),
];

/// The bit significance under each column of a byte, the same in both tables.
fn significances(bits: u32) -> [u32; 8] {
    match bits {
        1 => [0, 0, 0, 0, 0, 0, 0, 0],
        2 => [1, 0, 1, 0, 1, 0, 1, 0],
        4 => [3, 2, 1, 0, 3, 2, 1, 0],
        _ => [7, 6, 5, 4, 3, 2, 1, 0],
    }
}

/// That each bit of three bytes is of the pixel and of the significance that the table says, and of no other pixel.
fn assert_table(order: Order, table: [Row; 4]) {
    for (bits, pixels) in table {
        let layout = layout(order, 24 / bits, bits);
        for (byte, numbers) in pixels.into_iter().enumerate() {
            let columns = numbers.into_iter().zip(significances(bits));
            for (column, (pixel, significance)) in columns.enumerate() {
                let mut memory = [0; 3];
                memory[byte] = 0x80 >> column;
                let value = |x| get(&memory, &layout, (x, 0));
                for x in 0..24 / bits {
                    let expected = if x == pixel { 1 << significance } else { 0 };
                    assert_eq!(value(x), expected, "{layout:?}, {memory:02X?}, {x}");
                }
                let mut written = [0; 3];
                put(&mut written, &layout, (pixel, 0), 1 << significance);
                assert_eq!(written, memory, "{layout:?}, {pixel}");
            }
        }
    }
}

#[test]
fn intel_order_is_that_of_table_4_1() {
    assert_table(Intel, TABLE_4_1);
}

#[test]
fn motorola_order_is_that_of_table_4_2() {
    assert_table(Motorola, TABLE_4_2);
}

#[test]
fn bit_0_is_the_lowest_of_a_byte_in_intel_order() {
    let memory = [0b1110_0100, 0b0001_1011];
    assert_eq!(row(&memory, layout(Intel, 8, 1), 0), [0, 0, 1, 0]);
    assert_eq!(row(&memory, layout(Intel, 8, 2), 0), [0, 1, 2, 3]);
    assert_eq!(row(&memory, layout(Intel, 4, 2), 1), [3, 2, 1, 0]);
    assert_eq!(row(&memory, layout(Intel, 2, 4), 0), [0x4, 0xE]);
    assert_eq!(row(&memory[1..], layout(Intel, 2, 8), 0), [0b0001_1011]);
}

#[test]
fn the_leftmost_pixel_is_in_the_highest_bits_in_motorola_order() {
    let memory = [0b1110_0100, 0b0001_1011];
    assert_eq!(row(&memory, layout(Motorola, 8, 1), 0), [1, 1, 1, 0]);
    assert_eq!(row(&memory, layout(Motorola, 8, 2), 0), [3, 2, 1, 0]);
    assert_eq!(row(&memory, layout(Motorola, 4, 2), 1), [0, 1, 2, 3]);
    assert_eq!(row(&memory, layout(Motorola, 2, 4), 0), [0xE, 0x4]);
    assert_eq!(row(&memory[1..], layout(Motorola, 2, 8), 0), [0b0001_1011]);
}

#[test]
fn the_bits_of_a_pixel_are_not_mirrored() {
    // Mirrored, 01 would read 10, and 1 and D hex would read 8 and B.
    let memory = [0b0110_0011];
    assert_eq!(row(&memory, layout(Motorola, 4, 2), 0), [1, 2, 0, 3]);
    assert_eq!(row(&memory, layout(Intel, 4, 2), 0), [3, 0, 2, 1]);
    let memory = [0x1D];
    assert_eq!(row(&memory, layout(Motorola, 2, 4), 0), [0x1, 0xD]);
    assert_eq!(row(&memory, layout(Intel, 2, 4), 0), [0xD, 0x1]);

    let mut memory = [0; 2];
    put(&mut memory, &layout(Motorola, 4, 2), (1, 0), 0b01);
    put(&mut memory, &layout(Motorola, 2, 4), (0, 1), 0xD);
    assert_eq!(memory, [0b0001_0000, 0xD0]);
}

#[test]
fn at_8_bits_the_orders_are_one() {
    let memory: Vec<u8> = (0..24).map(|byte| byte * 11).collect();
    for y in 0..3 {
        let intel: [u32; 8] = row(&memory, layout(Intel, 8, 8), y);
        assert_eq!(row(&memory, layout(Motorola, 8, 8), y), intel);
    }
}

#[test]
fn rows_go_on_in_the_middle_of_a_byte() {
    let memory = [0b0110_1001];
    assert_eq!(row(&memory, layout(Intel, 3, 1), 1), [1, 0, 1]);
    assert_eq!(row(&memory, layout(Motorola, 3, 1), 1), [0, 1, 0]);
}

#[test]
fn put_then_get_is_the_value_and_no_other_pixel_changes() {
    for order in [Intel, Motorola] {
        for bits in [1, 2, 4, 8] {
            let layout = Layout {
                base: 2,
                ..layout(order, 5, bits)
            };
            let mut memory: Vec<u8> = (0..16).map(|byte| byte * 15 + 11).collect();
            let before = memory.clone();
            let value = 0x9A & ((1 << bits) - 1);
            put(&mut memory, &layout, (3, 1), value | 0xF00);
            for place in (0..2).flat_map(|y| (0..5).map(move |x| (x, y))) {
                let expected = if place == (3, 1) {
                    value
                } else {
                    get(&before, &layout, place)
                };
                assert_eq!(get(&memory, &layout, place), expected);
            }
            assert_eq!(memory[..2], before[..2]);
            assert_eq!(memory[12..], before[12..]);
        }
    }
}

#[test]
fn a_pixel_beyond_the_memory_is_known() {
    for order in [Intel, Motorola] {
        let bytes = |base| Layout {
            base,
            ..layout(order, 4, 8)
        };
        assert!(lies_within(4, &bytes(0), (3, 0)));
        assert!(!lies_within(4, &bytes(1), (3, 0)));
        assert!(lies_within(1, &layout(order, 8, 1), (7, 0)));
        assert!(!lies_within(1, &layout(order, 8, 1), (0, 1)));

        let far = Layout {
            base: u32::MAX,
            ..layout(order, u32::MAX, 8)
        };
        let corner = (u32::MAX, u32::MAX);
        assert!(!lies_within(4, &far, corner));
        let mut memory = [0xFF; 2];
        assert_eq!(get(&memory, &bytes(2), (0, 0)), 0);
        put(&mut memory, &far, corner, 0);
        assert_eq!(memory, [0xFF; 2]);
    }
}
