//! What a pattern pixel picks: a source and a mix, with the plane mask folded in.

/// Foreground or background.
pub(super) struct Ink {
    /// The bits taken from the source pixel: all, or none.
    source: u32,
    /// The colour, or 0 where the source map is taken.
    colour: u32,
    mix: Mix,
    planes: u32,
    ones: u32,
}

/// A mix, as the bits of the pixel that it changes.
enum Mix {
    /// D and (S and `and_source`, xor `and`), xor (S and `xor_source`, xor `xor`).
    Logical {
        and_source: u32,
        and: u32,
        xor_source: u32,
        xor: u32,
    },
    /// The code of an arithmetic mix.
    Arithmetic(u8),
}

impl Ink {
    /// The ink of a mix code under the enabled planes of a pixel of `ones`; no colour means the source map.
    pub(super) fn of(code: u8, planes: u32, ones: u32, colour: Option<u32>) -> Ink {
        Ink {
            source: if colour.is_none() { u32::MAX } else { 0 },
            colour: colour.unwrap_or(0),
            mix: if code <= 0xF {
                logical(u32::from(code), planes)
            } else {
                Mix::Arithmetic(code)
            },
            planes,
            ones,
        }
    }

    /// The bits that change in the destination pixel, above which there may be other bits.
    #[inline(always)]
    pub(super) fn change(&self, source: u32, destination: u32) -> u32 {
        let source = source & self.source | self.colour;
        match self.mix {
            Mix::Logical {
                and_source,
                and,
                xor_source,
                xor,
            } => destination & (source & and_source ^ and) ^ (source & xor_source ^ xor),
            Mix::Arithmetic(code) => {
                let (s, d) = (source & self.planes, destination & self.planes);
                d ^ arithmetic(code, self.planes, self.ones, s, d)
            }
        }
    }
}

/// A logical mix: the code's bits are its values for S and D, S alone, D alone and neither.
fn logical(code: u32, planes: u32) -> Mix {
    let bit = |place: u32| 0u32.wrapping_sub(code >> place & 1);
    let (both, source, destination, neither) = (bit(0), bit(1), bit(2), bit(3));
    Mix::Logical {
        and_source: (both ^ source ^ destination ^ neither) & planes,
        and: !(destination ^ neither) & planes,
        xor_source: (source ^ neither) & planes,
        xor: neither & planes,
    }
}

/// Mixes 10 to 15 hex on the enabled bits as one number (docs/DIFFERENCES.md, D2), which stay in their places.
fn arithmetic(code: u8, planes: u32, ones: u32, s: u32, d: u32) -> u32 {
    match code {
        0x10 => s.max(d),
        0x11 => s.min(d),
        0x12 => {
            // Ones in the masked bits carry from one enabled bit to the next.
            let sum = s + (d | ones & !planes);
            if sum > ones {
                planes
            } else {
                sum & planes
            }
        }
        0x13 => d.saturating_sub(s) & planes,
        0x14 => s.saturating_sub(d) & planes,
        _ if planes == ones => (s + d) / 2,
        _ => average(planes, s, d),
    }
}

/// Half the sum, rounded down, of two numbers whose bits lie in the enabled places.
fn average(planes: u32, s: u32, d: u32) -> u32 {
    let (mut average, mut carry, mut lower) = (0, 0, 0);
    let mut left = planes;
    while left != 0 {
        let place = left & left.wrapping_neg();
        let (s, d) = (u32::from(s & place != 0), u32::from(d & place != 0));
        let sum = s + d + carry;
        if sum & 1 == 1 {
            average |= lower;
        }
        (carry, lower) = (sum >> 1, place);
        left ^= place;
    }
    if carry == 1 {
        average |= lower;
    }
    average
}
