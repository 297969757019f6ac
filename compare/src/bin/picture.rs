//! Draws a figured motif through the proved library, and writes it as a portable graymap.
//!
//! usage: picture FILE

use compare::picture::loom::Loom;
use compare::picture::motif;
use std::process::ExitCode;

fn main() -> ExitCode {
    let file = std::env::args().nth(1).unwrap_or("picture.pgm".into());
    let mut loom = Loom::new(motif::MEMORY);
    motif::weave(&mut loom);

    let (width, height) = motif::SIZE;
    let mut bytes = format!("P5\n{width} {height}\n255\n").into_bytes();
    bytes.extend(&loom.memory[..(width * height) as usize]);
    if let Err(error) = std::fs::write(&file, bytes) {
        eprintln!("{file}: {error}");
        return ExitCode::FAILURE;
    }
    println!(
        "{file}: {width} by {height} pixels, {} positions drawn",
        loom.positions
    );
    ExitCode::SUCCESS
}
