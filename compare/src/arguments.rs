//! The words of the command line, each a name, `=` and a number.

/// How much is compared, and from which seed.
#[derive(Clone, Copy, Debug)]
pub struct Arguments {
    pub seed: u64,
    pub leaves: u64,
    pub images: u64,
    pub drawings: u64,
    pub stretches: u64,
    pub outlines: u64,
    pub sequences: u64,
    /// The number of the one sequence to repeat.
    pub only: Option<u64>,
}

const USAGE: &str =
    "usage: compare [seed=N] [leaves=N] [images=N] [drawings=N] [stretches=N] [outlines=N] [sequences=N] [only=N]";

impl Arguments {
    /// The defaults, changed by the words.
    pub fn of(words: impl Iterator<Item = String>) -> Result<Arguments, String> {
        let mut arguments = Arguments {
            seed: 1,
            leaves: 1_000_000,
            images: 20_000,
            drawings: 10_000,
            stretches: 14_000,
            outlines: 20_000,
            sequences: 120_000,
            only: None,
        };
        for word in words {
            let number = |text: &str| text.parse().map_err(|_| format!("{word}? {USAGE}"));
            match word.split_once('=') {
                Some(("seed", text)) => arguments.seed = number(text)?,
                Some(("leaves", text)) => arguments.leaves = number(text)?,
                Some(("images", text)) => arguments.images = number(text)?,
                Some(("drawings", text)) => arguments.drawings = number(text)?,
                Some(("stretches", text)) => arguments.stretches = number(text)?,
                Some(("outlines", text)) => arguments.outlines = number(text)?,
                Some(("sequences", text)) => arguments.sequences = number(text)?,
                Some(("only", text)) => arguments.only = Some(number(text)?),
                _ => return Err(format!("{word}? {USAGE}")),
            }
        }
        Ok(arguments)
    }
}
