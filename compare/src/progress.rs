//! How far the comparison has come, on standard error: on a terminal in one line that is rewritten, elsewhere in a line for each part done.

use std::collections::BTreeMap;
use std::fmt::Display;
use std::io::{self, IsTerminal};
use std::sync::{Mutex, MutexGuard, PoisonError};
use std::time::{Duration, Instant};

/// The line is rewritten at most this often, and asked for after so many steps of a part.
const OFTEN: Duration = Duration::from_millis(200);
const STEPS: u64 = 32;

/// Makes the terminal's line empty.
const CLEAR: &str = "\r\x1b[K";

/// The parts of a comparison, some of which go on beside each other.
pub struct Progress {
    is_terminal: bool,
    line: Mutex<Line>,
}

/// What is told.
struct Line {
    parts: usize,
    left: usize,
    /// The parts in hand, and how far each is, in hundredths.
    in_hand: BTreeMap<&'static str, u64>,
    /// How long the last part took.
    last: String,
    written: Instant,
}

impl Progress {
    /// Of so many parts, none of them begun.
    pub fn new(parts: usize) -> Progress {
        let line = Line {
            parts,
            left: parts,
            in_hand: BTreeMap::new(),
            last: String::new(),
            written: Instant::now(),
        };
        Progress {
            is_terminal: io::stderr().is_terminal(),
            line: Mutex::new(line),
        }
    }

    /// The steps of a part, which is begun, and done when all of them are.
    pub fn steps(&self, name: &'static str, asked: u64) -> Steps<'_> {
        Steps {
            progress: self,
            name,
            asked,
            done: 0,
            begun: Instant::now(),
        }
    }

    /// Prints a text on standard output, at the beginning of a line.
    pub fn print(&self, text: impl Display) {
        let _line = self.line();
        self.clear();
        println!("{text}");
    }

    /// Tells on a terminal how far a part is.
    fn tell(&self, part: &Steps) {
        let mut line = self.line();
        line.in_hand.insert(part.name, 100 * part.done / part.asked);
        if line.written.elapsed() >= OFTEN {
            line.written = Instant::now();
            eprint!("{CLEAR}{}", line.text());
        }
    }

    /// Tells that a part is done.
    fn end(&self, part: &Steps) {
        let mut line = self.line();
        let took = part.begun.elapsed().as_secs_f64();
        line.in_hand.remove(part.name);
        line.left -= 1;
        line.last = format!("; {} took {took:.0} s", part.name);
        if !self.is_terminal {
            let (name, left, parts) = (part.name, line.left, line.parts);
            eprintln!("compared {name} ({took:.0} s), {left} of {parts} parts left");
        }
    }

    fn clear(&self) {
        if self.is_terminal {
            eprint!("{CLEAR}");
        }
    }

    /// The line, also after a panic.
    fn line(&self) -> MutexGuard<'_, Line> {
        self.line.lock().unwrap_or_else(PoisonError::into_inner)
    }
}

impl Drop for Progress {
    fn drop(&mut self) {
        self.clear();
    }
}

impl Line {
    fn text(&self) -> String {
        let far = |(part, hundredths): (&&str, &u64)| format!("{part} {hundredths} %");
        let in_hand: Vec<String> = self.in_hand.iter().map(far).collect();
        let (in_hand, left, parts) = (in_hand.join(", "), self.left, self.parts);
        format!("{in_hand}; {left} of {parts} parts left{}", self.last)
    }
}

/// The steps of one part, counted from 0.
pub struct Steps<'a> {
    progress: &'a Progress,
    name: &'static str,
    /// How many there are.
    pub asked: u64,
    done: u64,
    begun: Instant,
}

impl Iterator for Steps<'_> {
    type Item = u64;

    fn next(&mut self) -> Option<u64> {
        if self.done == self.asked {
            self.progress.end(self);
            return None;
        }
        if self.progress.is_terminal && self.done.is_multiple_of(STEPS) {
            self.progress.tell(self);
        }
        self.done += 1;
        Some(self.done - 1)
    }
}
