//! Mixes, plane mask and compare conditions on one pixel (01, One position).

/// 01, Numbers a call answers with: the last mix.
pub const LAST_MIX: u8 = 0x15;

/// The last of the logical mixes; those above it are arithmetic.
const LAST_LOGICAL: u32 = 0x0F;

/// The new destination pixel after mix `code`: plane-mask 1 bits come from the mix and 0 bits stay.
///
/// Only the low `bits` bits of the plane mask, source and destination count; a code above 15 hex leaves the destination.
pub fn mix(code: u32, bits: u32, planes: u32, source: u32, destination: u32) -> u32 {
    let enabled = planes & ones(bits);
    let mixed = if code <= LAST_LOGICAL {
        logical(code, source, destination)
    } else {
        // docs/DIFFERENCES.md, D2: the enabled bits are one number, and masked bits are excluded.
        let number = arithmetic(
            code,
            gather(enabled, source),
            gather(enabled, destination),
            gather(enabled, enabled),
        );
        scatter(enabled, number)
    };
    ((mixed & enabled) | (destination & !enabled)) & ones(bits)
}

/// Whether the compare condition is true of the destination pixel.
///
/// docs/DIFFERENCES.md, D1: only the enabled bits are compared, unsigned.
pub fn holds(condition: u32, bits: u32, planes: u32, destination: u32, value: u32) -> bool {
    let enabled = planes & ones(bits);
    let destination = gather(enabled, destination);
    let value = gather(enabled, value);
    match condition {
        0 => true,
        1 => destination > value,
        2 => destination == value,
        3 => destination < value,
        4 => false,
        5 => destination >= value,
        6 => destination != value,
        7 => destination <= value,
        // The register's reduction leaves no other condition.
        _ => false,
    }
}

/// All ones of a pixel of so many bits.
pub fn ones(bits: u32) -> u32 {
    1u32.checked_shl(bits).unwrap_or(0).wrapping_sub(1)
}

/// 01, One position: mixes 0 to F hex.
fn logical(code: u32, s: u32, d: u32) -> u32 {
    match code {
        0x0 => 0,
        0x1 => s & d,
        0x2 => s & !d,
        0x3 => s,
        0x4 => !s & d,
        0x5 => d,
        0x6 => s ^ d,
        0x7 => s | d,
        0x8 => !s & !d,
        0x9 => s ^ !d,
        0xA => !d,
        0xB => s | !d,
        0xC => !s,
        0xD => !s | d,
        0xE => !s | !d,
        _ => u32::MAX,
    }
}

/// 01, One position: mixes 10 to 15 hex, on numbers of 0 to `top`.
fn arithmetic(code: u32, s: u32, d: u32, top: u32) -> u32 {
    match code {
        0x10 => s.max(d),
        0x11 => s.min(d),
        0x12 => s.saturating_add(d).min(top),
        0x13 => d.saturating_sub(s),
        0x14 => s.saturating_sub(d),
        0x15 => ((u64::from(s) + u64::from(d)) / 2) as u32,
        _ => d,
    }
}

/// The bits of `pixel` that the mask enables, gathered in order into one number.
fn gather(enabled: u32, pixel: u32) -> u32 {
    let mut number = 0;
    let mut next = 0;
    for place in 0..u32::BITS {
        if (enabled >> place) & 1 == 1 {
            number |= ((pixel >> place) & 1) << next;
            next += 1;
        }
    }
    number
}

/// The bits of `number` put back in order where the mask enables.
fn scatter(enabled: u32, number: u32) -> u32 {
    let mut pixel = 0;
    let mut next = 0;
    for place in 0..u32::BITS {
        if (enabled >> place) & 1 == 1 {
            pixel |= ((number >> next) & 1) << place;
            next += 1;
        }
    }
    pixel
}
