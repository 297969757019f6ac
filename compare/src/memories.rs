//! A memory held twice, one copy lent to the proved code and one to the independent program.

use crate::guarded::Guarded;
use crate::random::Random;

/// The two copies; that of the proved code stands between guard bytes.
#[derive(Clone, Debug)]
pub struct Memories {
    pub proved: Guarded,
    pub plain: Vec<u8>,
}

impl Memories {
    /// Two copies of the bytes.
    pub fn of(bytes: &[u8]) -> Memories {
        Memories {
            proved: Guarded::of(bytes),
            plain: bytes.to_vec(),
        }
    }

    /// Makes both of this length, in the same storage; bytes that come in are random.
    pub fn set_length(&mut self, random: &mut Random, length: u32) {
        let length = length as usize;
        if length == self.plain.len() {
            return;
        }
        while self.plain.len() < length {
            self.plain.extend(random.number().to_le_bytes());
        }
        self.plain.truncate(length);
        self.proved.take(&self.plain);
    }

    /// That both have the same bytes, and that no guard byte was touched.
    pub fn agree(&self) -> Result<(), String> {
        if !self.proved.are_guards_kept() {
            return Err("a byte outside the memory was written".to_string());
        }
        if self.proved.bytes() == self.plain {
            return Ok(());
        }
        let bytes = self.proved.bytes().iter().zip(&self.plain);
        let differing: Vec<String> = (0..)
            .zip(bytes)
            .filter(|(_, (said, right))| said != right)
            .map(|(at, (said, right))| format!("{at:X}: {said:02X} for {right:02X}"))
            .take(8)
            .collect();
        Err(format!(
            "the memories differ at {} ..",
            differing.join(", ")
        ))
    }
}
