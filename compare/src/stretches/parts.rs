//! What a stretch is drawn as: pixels before the first whole byte, whole bytes, and the pixels that remain.

/// The positions of each part, in the direction of travel.
#[derive(Clone, Copy, Debug, PartialEq, Eq)]
pub struct Parts {
    pub before: u32,
    pub whole: u32,
    pub after: u32,
}

impl Parts {
    /// Those of so many pixels, of which the first has this place in its byte of so many, and which go forth or back.
    pub fn of(length: u32, place: u32, in_byte: u32, is_back: bool) -> Parts {
        let to_a_byte = match is_back {
            true => place + 1,
            false => in_byte - place,
        };
        let before = (to_a_byte % in_byte).min(length);
        let after = (length - before) % in_byte;
        Parts {
            before,
            whole: length - before - after,
            after,
        }
    }
}
