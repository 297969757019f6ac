//! A pixel in memory (01, Maps and pointers; 02, 101).

/// 003:586: the two orders of pixels.
#[derive(Clone, Copy, Debug, PartialEq, Eq)]
pub enum Order {
    /// 003:610, Table 4.1: the leftmost pixel is in a byte's lowest bits.
    Intel,
    /// 003:632, Table 4.2: the leftmost pixel is in a byte's highest bits.
    Motorola,
}

/// How the pixels of a map lie in memory.
#[derive(Clone, Copy, Debug, PartialEq, Eq)]
pub struct Layout {
    /// The byte of memory where the map starts.
    pub base: u32,
    /// The pixels of a row.
    pub row_length: u32,
    /// The bits of a pixel.
    pub bits: u32,
    /// The order of the pixels in a byte.
    pub order: Order,
}

/// The first bit of pixel (x, y), counted from the base: (Y times row length + X) times size.
///
/// A product above 64 bits stays at the top, which lies beyond every memory.
pub fn start_bit(row_length: u32, bits: u32, x: u32, y: u32) -> u64 {
    (u64::from(y) * u64::from(row_length) + u64::from(x)).saturating_mul(u64::from(bits))
}

/// The bytes that a map of so many pixels needs, rounded up, in either order.
pub fn bytes_needed(width_pixels: u32, height_pixels: u32, bits: u32) -> u64 {
    (u64::from(width_pixels) * u64::from(height_pixels))
        .saturating_mul(u64::from(bits))
        .div_ceil(8)
}

/// Whether every bit of pixel (x, y) lies in a memory of so many bytes.
pub fn lies_within(memory_length: usize, layout: &Layout, (x, y): (u32, u32)) -> bool {
    let last = u64::from(layout.bits.saturating_sub(1));
    let last = start_bit(layout.row_length, layout.bits, x, y).saturating_add(last);
    byte_of(layout, last) < memory_length
}

/// The value of pixel (x, y); bits beyond the memory read 0.
pub fn get(memory: &[u8], layout: &Layout, (x, y): (u32, u32)) -> u32 {
    let mut value = 0;
    for significance in 0..layout.bits.min(u32::BITS) {
        let (byte, bit) = place(layout, (x, y), significance);
        if let Some(byte) = memory.get(byte) {
            value |= u32::from((byte >> bit) & 1) << significance;
        }
    }
    value
}

/// Makes pixel (x, y) the low bits of `value`; bits beyond the memory are dropped, and all other bits of the memory stay.
pub fn put(memory: &mut [u8], layout: &Layout, (x, y): (u32, u32), value: u32) {
    for significance in 0..layout.bits.min(u32::BITS) {
        let (byte, bit) = place(layout, (x, y), significance);
        if let Some(byte) = memory.get_mut(byte) {
            let one = 1 << bit;
            *byte = if (value >> significance) & 1 == 1 {
                *byte | one
            } else {
                *byte & !one
            };
        }
    }
}

/// The byte of memory, and the bit there, that holds the bit of pixel (x, y) of this significance.
///
/// Intel order counts bits from a byte's lowest up, a pixel's least significant first; Motorola order from a byte's highest down, a
/// pixel's most significant first. So the value of a pixel reads the same way in both, and only the pixels of a byte change places.
fn place(layout: &Layout, (x, y): (u32, u32), significance: u32) -> (usize, u64) {
    let start = start_bit(layout.row_length, layout.bits, x, y);
    match layout.order {
        Order::Intel => {
            let bit = start.saturating_add(u64::from(significance));
            (byte_of(layout, bit), bit % 8)
        }
        Order::Motorola => {
            let bit = start.saturating_add(u64::from(layout.bits - 1 - significance));
            (byte_of(layout, bit), 7 - bit % 8)
        }
    }
}

/// The byte of memory that holds the bit so far from the base, in either order.
fn byte_of(layout: &Layout, bit: u64) -> usize {
    usize::try_from(u64::from(layout.base) + bit / 8).unwrap_or(usize::MAX)
}
