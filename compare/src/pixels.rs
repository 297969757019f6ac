//! Pixels in memory: the proved code and the independent program on random maps and memories, in both orders.

use crate::leaves;
use crate::progress::Steps;
use crate::random::Random;
use crate::writes::MOTOROLA;
use model::pixels::{self, Order};
use model::Map;

const GUARD: usize = 16;

/// What a comparison of pixels met.
#[derive(Default)]
pub struct Counts {
    pub compared: u64,
    pub beyond: u64,
    pub changed: u64,
    pub sizes: [u64; 4],
    pub motorola: u64,
}

/// Compares a pixel in each step: read, written and read again, in memory between guard bytes.
pub fn compare(random: &mut Random, steps: Steps) -> Result<Counts, String> {
    let mut counts = Counts::default();
    for _ in steps {
        let length = 1 + random.below(96) as usize;
        let map = Map {
            base: random.below(24),
            width: random.below(40) as u16,
            height: random.below(12) as u16,
            format: (random.below(4) | random.pick(&[0, MOTOROLA])) as u8,
        };
        let layout = map.layout();
        let place = (random.below(map.row_length()), random.below(map.rows()));
        let value = random.word();
        let mut proved: Vec<u8> = (0..length + 2 * GUARD)
            .map(|_| random.word() as u8)
            .collect();
        let mut plain = proved.clone();
        let before = plain.clone();
        let (first, last) = (GUARD, GUARD + length);

        let needed = pixels::bytes_needed(map.row_length(), map.rows(), map.bits());
        let said = leaves::get(&proved[first..last], map, place);
        let right = pixels::get(&plain[first..last], &layout, place);
        leaves::put(&mut proved[first..last], map, place, value);
        pixels::put(&mut plain[first..last], &layout, place, value);
        let again = leaves::get(&proved[first..last], map, place);
        let inside = pixels::lies_within(length, &layout, place);
        let kept = if inside {
            value & model::mixes::ones(map.bits())
        } else {
            0
        };

        if said != right || again != kept || proved != plain || leaves::needed(map) != needed {
            return Err(format!(
                "pixel {place:?} of {map:?} in {length} bytes, value {value:#X}: read {said:#X} for {right:#X}, then {again:#X} for {kept:#X}, memory equal: {}",
                proved == plain
            ));
        }
        counts.compared += 1;
        counts.beyond += u64::from(!inside);
        counts.changed += u64::from(proved != before);
        counts.sizes[usize::from(map.pixel_code())] += 1;
        counts.motorola += u64::from(map.order() == Order::Motorola);
    }
    Ok(counts)
}
