//! The proved coprocessor, as the static library exports it: every call works on a state image.

pub use model::image::LENGTH as IMAGE;

mod exported {
    extern "C" {
        pub fn xga_fresh(image: *mut u8, image_length: usize, size: u32) -> u32;
        pub fn xga_write(
            image: *mut u8,
            image_length: usize,
            offset: u32,
            length: u32,
            value: u32,
        ) -> u32;
        pub fn xga_read(image: *const u8, image_length: usize, offset: u32, length: u32) -> u64;
        pub fn xga_run(
            image: *mut u8,
            image_length: usize,
            memory: *mut u8,
            memory_length: usize,
            allowance: u32,
        ) -> u64;
        pub fn xga_load(image: *const u8, image_length: usize) -> u32;
    }
}

/// Makes the image that of a fresh state; 0 or the refusal.
pub fn fresh(image: &mut [u8], size: u32) -> u32 {
    // SAFETY: the pointer and the length are those of one slice, which is lent for the call.
    unsafe { exported::xga_fresh(image.as_mut_ptr(), image.len(), size) }
}

/// Writes registers; 0 or the refusal.
pub fn write(image: &mut [u8], offset: u32, length: u32, value: u32) -> u32 {
    // SAFETY: the pointer and the length are those of one slice, which is lent for the call.
    unsafe { exported::xga_write(image.as_mut_ptr(), image.len(), offset, length, value) }
}

/// Reads registers: the refusal, or 0, and the value; the image is lent so that a byte changed would be seen.
pub fn read(image: &mut [u8], offset: u32, length: u32) -> (u32, u32) {
    // SAFETY: the pointer and the length are those of one slice, which is lent for the call.
    halves(unsafe { exported::xga_read(image.as_mut_ptr(), image.len(), offset, length) })
}

/// Runs the drawing in hand: the refusal, or 0, and the positions done.
pub fn run(image: &mut [u8], memory: &mut [u8], allowance: u32) -> (u32, u32) {
    // SAFETY: each pointer and length are those of one slice, and the two slices are apart.
    halves(unsafe {
        exported::xga_run(
            image.as_mut_ptr(),
            image.len(),
            memory.as_mut_ptr(),
            memory.len(),
            allowance,
        )
    })
}

/// 0 where the image would load, otherwise 10; the image is lent so that a byte changed would be seen.
pub fn load(image: &mut [u8]) -> u32 {
    // SAFETY: the pointer and the length are those of one slice, which is lent for the call.
    unsafe { exported::xga_load(image.as_mut_ptr(), image.len()) }
}

fn halves(answer: u64) -> (u32, u32) {
    ((answer >> 32) as u32, answer as u32)
}
