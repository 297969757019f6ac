//! Every part of the comparison, in the order in which it is told.

use crate::arguments::Arguments;
use crate::others::Others;
use crate::progress::Progress;
use crate::random::Random;
use crate::{drawings, images, mixes, outlines, panics, pixels, sequences, stretches};

/// Compares all that is asked for, and prints what each part met; an error is the first difference.
pub fn all(asked: &Arguments) -> Result<(), String> {
    let seed = asked.seed;
    // Each part has random numbers of its own, so that its size does not change those of another.
    let random = |part: u64| Random::new(Random::new(seed).number().wrapping_sub(part));
    let others = Others::new(&mut random(1))?;
    if let Some(number) = asked.only {
        println!("seed {seed}, sequence {number}");
        let mut counts = sequences::Counts::default();
        return sequences::one(seed, number, &others, &mut counts, true);
    }
    println!(
        "seed {seed}: {} images, {} drawings, {} stretches, {} outlines, {} sequences",
        asked.images, asked.drawings, asked.stretches, asked.outlines, asked.sequences
    );
    let progress = Progress::new(parts_of(asked));
    std::thread::scope(|scope| {
        // The sequences, which take longest, go on beside the other parts, and are told after them.
        let beside = scope.spawn(|| panics::caught(|| of_sequences(asked, &others, &progress)));
        parts(asked, random, &others, &progress)?;
        if let Some(met) = beside.join().expect("its panics are caught")? {
            progress.print(met);
        }
        Ok(())
    })
}

/// How many parts are asked for; the leaves are two, mixes and pixels.
fn parts_of(asked: &Arguments) -> usize {
    let leaves = [asked.leaves; 2];
    let others = [
        asked.images,
        asked.drawings,
        asked.stretches,
        asked.outlines,
        asked.sequences,
    ];
    let counts = leaves.iter().chain(&others);
    counts.filter(|count| **count > 0).count()
}

/// Compares the sequences: what was met, if any is asked for.
fn of_sequences(
    asked: &Arguments,
    others: &Others,
    progress: &Progress,
) -> Result<Option<sequences::Counts>, String> {
    match asked.sequences {
        0 => Ok(None),
        count => {
            sequences::compare(asked.seed, progress.steps("sequences", count), others).map(Some)
        }
    }
}

/// Compares all parts but the sequences, one after another, and tells what each met.
fn parts(
    asked: &Arguments,
    random: impl Fn(u64) -> Random,
    others: &Others,
    progress: &Progress,
) -> Result<(), String> {
    if asked.leaves > 0 {
        compare_leaves(&mut random(2), asked.leaves, progress)?;
    }
    if asked.images > 0 {
        let steps = progress.steps("images", asked.images);
        progress.print(images::compare(&mut random(3), steps, others)?);
    }
    if asked.drawings > 0 {
        let steps = progress.steps("drawings", asked.drawings);
        progress.print(drawings::compare(&mut random(4), random(5), steps, others)?);
    }
    if asked.stretches > 0 {
        let steps = progress.steps("stretches", asked.stretches);
        progress.print(stretches::compare(&mut random(7), steps, others)?);
    }
    if asked.outlines > 0 {
        let steps = progress.steps("outlines", asked.outlines);
        progress.print(outlines::compare(&mut random(6), steps)?);
    }
    Ok(())
}

fn compare_leaves(random: &mut Random, count: u64, progress: &Progress) -> Result<(), String> {
    let met = mixes::compare(random, progress.steps("mixes", count))?;
    progress.print(format_args!(
        "mixes: {} compared, {} changed the pixel",
        met.mixes, met.changed
    ));
    progress.print(format_args!(
        "conditions: {} compared, {} held",
        met.conditions, met.holding
    ));
    let met = pixels::compare(random, progress.steps("pixels", count))?;
    progress.print(format_args!(
        "pixels: {} compared ({:?} of 1, 2, 4, 8 bits), {} in Motorola order, {} beyond the memory, {} changed it",
        met.compared, met.sizes, met.motorola, met.beyond, met.changed
    ));
    Ok(())
}
