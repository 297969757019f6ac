//! Named things, each of which must be met.

use crate::report;
use std::fmt;

/// How often each was met.
pub struct Tally {
    title: &'static str,
    names: Vec<String>,
    times: Vec<u64>,
}

impl Tally {
    pub fn new(title: &'static str, names: impl IntoIterator<Item = impl ToString>) -> Tally {
        let names: Vec<String> = names.into_iter().map(|name| name.to_string()).collect();
        let times = vec![0; names.len()];
        Tally {
            title,
            names,
            times,
        }
    }

    /// Each name going forth, and then each going back.
    pub fn both_ways(title: &'static str, names: &[&str]) -> Tally {
        let ways = ["forth", "back"];
        let named = |way| names.iter().map(move |name| format!("{name} {way}"));
        Tally::new(title, ways.into_iter().flat_map(named))
    }

    /// Counts what has this place among the names.
    pub fn note(&mut self, place: usize, times: u32) {
        self.times[place] += u64::from(times);
    }

    /// Counts what has this place among the names of one way.
    pub fn note_way(&mut self, is_back: bool, place: usize, times: u32) {
        let way = usize::from(is_back) * self.names.len() / 2;
        self.note(way + place, times);
    }

    /// How often all together were met.
    pub fn sum(&self) -> u64 {
        self.times.iter().sum()
    }

    /// What was never met.
    pub fn never_met(&self) -> Option<String> {
        let mut named = self.names.iter().zip(&self.times);
        let (name, _) = named.find(|(_, times)| **times == 0)?;
        Some(format!("{}: {name} was never met", self.title))
    }
}

/// One for each logical mix.
pub fn of_mixes(title: &'static str) -> Tally {
    Tally::new(title, (0..=0xF).map(|mix| format!("{mix:X}")))
}

/// What was never met of the first of these that lacks anything.
pub fn never_met(tallies: &[&Tally]) -> Option<String> {
    tallies.iter().find_map(|tally| tally.never_met())
}

/// Writes these one after another.
pub fn write_all(lines: &mut fmt::Formatter, tallies: &[&Tally]) -> fmt::Result {
    tallies
        .iter()
        .try_for_each(|tally| write!(lines, "{tally}"))
}

impl fmt::Display for Tally {
    fn fmt(&self, lines: &mut fmt::Formatter) -> fmt::Result {
        let names: Vec<&str> = self.names.iter().map(String::as_str).collect();
        write!(lines, "{}", report::met(self.title, &names, &self.times))
    }
}
