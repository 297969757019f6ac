//! Mixes and compare conditions: every case of small pixels, and random ones of 8 bits.

use crate::leaves;
use crate::progress::Steps;
use crate::random::Random;

const CODES: u32 = 22;
const CONDITIONS: u32 = 8;
const SMALL: [u32; 4] = [1, 2, 3, 4];
const LARGE: u32 = 8;

/// What a comparison of mixes met.
#[derive(Default)]
pub struct Counts {
    pub mixes: u64,
    pub conditions: u64,
    pub holding: u64,
    pub changed: u64,
}

/// Compares every code, source, destination and mask of pixels up to 4 bits, and in each step random ones of 8.
pub fn compare(random: &mut Random, steps: Steps) -> Result<Counts, String> {
    let mut counts = Counts::default();
    for bits in SMALL {
        for planes in 0..1 << bits {
            for s in 0..1 << bits {
                for d in 0..1 << bits {
                    for code in 0..CODES {
                        one_mix(&mut counts, code, bits, planes, s, d)?;
                    }
                    for condition in 0..CONDITIONS {
                        one_condition(&mut counts, condition, bits, planes, d, s)?;
                    }
                }
            }
        }
    }
    for _ in steps {
        // Words wider than the pixel show that only its low bits count.
        let (planes, s, d) = (random.word(), random.word(), random.word());
        one_mix(&mut counts, random.below(CODES), LARGE, planes, s, d)?;
        let value = if random.once_in(4) { d } else { s };
        one_condition(
            &mut counts,
            random.below(CONDITIONS),
            LARGE,
            planes,
            d,
            value,
        )?;
    }
    Ok(counts)
}

fn one_mix(
    counts: &mut Counts,
    code: u32,
    bits: u32,
    planes: u32,
    s: u32,
    d: u32,
) -> Result<(), String> {
    let said = leaves::mix(bits, code as u8, planes, s, d);
    let right = model::mixes::mix(code, bits, planes, s, d);
    if said != right {
        return Err(format!(
            "mix {code:#X} of {bits} bits under {planes:#X}, S {s:#X}, D {d:#X}: {said:#X} for {right:#X}"
        ));
    }
    counts.mixes += 1;
    counts.changed += u64::from(said != d & model::mixes::ones(bits));
    Ok(())
}

fn one_condition(
    counts: &mut Counts,
    condition: u32,
    bits: u32,
    planes: u32,
    d: u32,
    value: u32,
) -> Result<(), String> {
    let said = leaves::holds(bits, condition as u8, planes, d, value);
    let right = model::mixes::holds(condition, bits, planes, d, value);
    if said != right {
        return Err(format!(
            "condition {condition} of {bits} bits under {planes:#X}, D {d:#X}, value {value:#X}: {said} for {right}"
        ));
    }
    counts.conditions += 1;
    counts.holding += u64::from(said);
    Ok(())
}
