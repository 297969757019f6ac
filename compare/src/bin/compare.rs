//! Holds the proved code against the independent program.
//!
//! usage: compare [seed=N] [leaves=N] [images=N] [drawings=N] [stretches=N] [outlines=N] [sequences=N] [only=N]
//!
//! Compares mixes, conditions and pixels (`leaves` of each at random), state images, whole drawings, drawings at the borders of
//! stretches, filled outlines with plain geometry, and sequences of calls; left out, the numbers are 1, 1,000,000, 20,000, 10,000,
//! 14,000, 20,000 and 120,000.
//! A part of which 0 is asked is left out; `only` repeats the sequence of that number alone and tells its calls.
//! The last line is `no difference`, or the first difference is told after `DIFFERENCE:` and the exit status is not 0.

use compare::arguments::Arguments;
use compare::{comparison, panics};
use std::process::ExitCode;

fn main() -> ExitCode {
    let arguments = match Arguments::of(std::env::args().skip(1)) {
        Ok(arguments) => arguments,
        Err(usage) => {
            eprintln!("{usage}");
            return ExitCode::FAILURE;
        }
    };
    match panics::caught(|| comparison::all(&arguments)) {
        Ok(()) => {
            println!("no difference");
            ExitCode::SUCCESS
        }
        Err(difference) => {
            println!("DIFFERENCE: {difference}");
            ExitCode::FAILURE
        }
    }
}
