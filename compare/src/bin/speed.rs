//! Times the proved library beside the fast runner, the clear program, and the same work by hand, the limit.
//!
//! usage: speed [WORKLOAD]
//!
//! The fast runner has no writes of its own, so that where they are timed its writes are the clear program's.
//! With the name of a workload the proved library only does that work once, for its instructions to be counted.

use compare::speed::instructions;
use compare::speed::race::{self, Best, TURNS};
use compare::speed::workloads::{self, Workload};
use std::time::Duration;

fn main() {
    let workloads = workloads::all();
    match std::env::args().nth(1) {
        None => table(&workloads),
        Some(name) => {
            let found = workloads.iter().find(|workload| workload.name == name);
            race::proved_once(&found.expect("the name of a workload").work());
        }
    }
}

/// A row for each workload, as soon as it is timed.
fn table(workloads: &[Workload]) {
    println!(
        "{:<42}{:>9}{:>9}{:>9}{:>13}{:>9}{:>14}{:>23}",
        "ns for each position or drawing",
        "proved",
        "fast",
        "clear",
        "proved/fast",
        "limit",
        "proved/limit",
        "instructions/position"
    );
    let mut earlier: Vec<(&str, f64)> = Vec::new();
    for workload in workloads {
        let best = race::best(&workload.work(), TURNS);
        let time = each(workload, &best, best.proved);
        let count = instructions::counted(&workload.name);
        let count = count.map(|count| count as f64 / best.positions as f64);
        let row = row(workload, &best, count);
        println!("{row}{}", times(workload.other, time, &earlier));
        earlier.push((&workload.name, time));
    }
}

/// The time for each position, or for each drawing.
fn each(workload: &Workload, best: &Best, time: Duration) -> f64 {
    let count = match workload.is_by_drawing {
        true => best.drawings,
        false => best.positions,
    };
    time.as_nanos() as f64 / count as f64
}

/// One line of the table, with the instructions of a position.
fn row(workload: &Workload, best: &Best, instructions: Option<f64>) -> String {
    let unit = if workload.is_by_drawing { ", each" } else { "" };
    let name = format!("{}{unit}", workload.name);
    let each = |time: Duration| each(workload, best, time);
    let ratio = |time: Duration| best.proved.as_nanos() as f64 / time.as_nanos() as f64;
    let instructions = instructions.map_or("-".to_string(), |count| format!("{count:.1}"));
    format!(
        "{name:<42}{:>9.2}{:>9.2}{:>9.1}{:>13.2}{:>9.3}{:>14.1}{instructions:>23}",
        each(best.proved),
        each(best.fast),
        each(best.clear),
        ratio(best.fast),
        each(best.limit),
        ratio(best.limit),
    )
}

/// How many times another workload's time, of the proved library, this one takes.
fn times(other: Option<&str>, time: f64, earlier: &[(&str, f64)]) -> String {
    let found = earlier.iter().find(|(name, _)| Some(*name) == other);
    found.map_or(String::new(), |(name, before)| {
        format!("  {:.2} times {name}", time / before)
    })
}
