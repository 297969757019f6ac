//! Bytes lent to a call, between guard bytes that no call may touch.

const GUARD: [u8; 16] = [0xA5; 16];

/// Bytes between two guards.
#[derive(Clone, Debug)]
pub struct Guarded {
    all: Vec<u8>,
}

impl Guarded {
    /// A copy of the bytes, between guards.
    pub fn of(bytes: &[u8]) -> Guarded {
        let mut guarded = Guarded { all: Vec::new() };
        guarded.take(bytes);
        guarded
    }

    /// Holds a copy of other bytes, of any length, in the same storage.
    pub fn take(&mut self, bytes: &[u8]) {
        self.all.clear();
        self.all.extend_from_slice(&GUARD);
        self.all.extend_from_slice(bytes);
        self.all.extend_from_slice(&GUARD);
    }

    /// The bytes.
    pub fn bytes(&self) -> &[u8] {
        &self.all[GUARD.len()..self.all.len() - GUARD.len()]
    }

    /// The bytes, to be lent to a call.
    pub fn bytes_mut(&mut self) -> &mut [u8] {
        let end = self.all.len() - GUARD.len();
        &mut self.all[GUARD.len()..end]
    }

    /// Whether no guard byte was touched.
    pub fn are_guards_kept(&self) -> bool {
        self.all.starts_with(&GUARD) && self.all.ends_with(&GUARD)
    }
}
