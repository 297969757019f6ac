//! The instructions that the proved library's runs take, as callgrind counts them.

use std::env;
use std::process::Command;

/// The function of the library whose instructions are counted, with those of all that it calls.
const RUN: &str = "--toggle-collect=xga_run";

/// The instructions of all runs when this program does the work of that name once; none where valgrind is not installed.
pub fn counted(name: &str) -> Option<u64> {
    let program = env::current_exe().ok()?;
    let child = Command::new("valgrind")
        .args(["--tool=callgrind", "--callgrind-out-file=/dev/null", RUN])
        .arg(program)
        .arg(name)
        .output()
        .ok()?;
    let told = String::from_utf8_lossy(&child.stderr);
    let count = child.status.success().then(|| collected(&told)).flatten();
    if count.is_none() {
        eprintln!("{name}: no instructions were counted\n{told}");
    }
    count
}

/// The number in the line that tells what was collected.
fn collected(told: &str) -> Option<u64> {
    let mut lines = told.lines();
    let (_, number) = lines.find_map(|line| line.split_once("Collected :"))?;
    number.trim().parse().ok()
}
