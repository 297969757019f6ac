//! The proved leaves, as the static library exports them.

use model::Map;

mod exported {
    extern "C" {
        pub fn leaf_mix(bits: u32, code: u8, planes: u32, source: u32, destination: u32) -> u32;
        pub fn leaf_holds(
            bits: u32,
            condition: u8,
            planes: u32,
            destination: u32,
            value: u32,
        ) -> u32;
        pub fn leaf_needed(width: u16, height: u16, format: u8) -> u64;
        pub fn leaf_get(
            memory: *const u8,
            length: usize,
            base: u32,
            width: u16,
            format: u8,
            x: u16,
            y: u16,
        ) -> u32;
        pub fn leaf_put(
            memory: *mut u8,
            length: usize,
            base: u32,
            width: u16,
            format: u8,
            x: u16,
            y: u16,
            value: u32,
        );
    }
}

/// The destination pixel after a mix under the plane mask.
pub fn mix(bits: u32, code: u8, planes: u32, source: u32, destination: u32) -> u32 {
    // SAFETY: the function takes numbers only.
    unsafe { exported::leaf_mix(bits, code, planes, source, destination) }
}

/// Whether the compare condition is true of the destination.
pub fn holds(bits: u32, condition: u8, planes: u32, destination: u32, value: u32) -> bool {
    // SAFETY: the function takes numbers only.
    unsafe { exported::leaf_holds(bits, condition, planes, destination, value) == 1 }
}

/// The bytes that a map needs.
pub fn needed(map: Map) -> u64 {
    // SAFETY: the function takes numbers only.
    unsafe { exported::leaf_needed(map.width, map.height, map.format) }
}

/// Pixel (x, y) of a map.
pub fn get(memory: &[u8], map: Map, (x, y): (u32, u32)) -> u32 {
    // SAFETY: the pointer and the length are those of one slice.
    unsafe {
        exported::leaf_get(
            memory.as_ptr(),
            memory.len(),
            map.base,
            map.width,
            map.format,
            x as u16,
            y as u16,
        )
    }
}

/// Makes pixel (x, y) of a map the low bits of `value`.
pub fn put(memory: &mut [u8], map: Map, (x, y): (u32, u32), value: u32) {
    // SAFETY: the pointer and the length are those of one slice, which is lent for the call.
    unsafe {
        exported::leaf_put(
            memory.as_mut_ptr(),
            memory.len(),
            map.base,
            map.width,
            map.format,
            x as u16,
            y as u16,
            value,
        )
    }
}
