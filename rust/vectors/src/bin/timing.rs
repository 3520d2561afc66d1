//! Times the check and the readout of heavy files, and of the stored vectors' groups.

use std::hint::black_box;
use std::io::{self, Write};
use std::time::{Duration, Instant};

use yestrwyn_second::{check_into, write_readout};
use yestrwyn_types::Cells;
use yestrwyn_vectors::examples::{heavy, Example};
use yestrwyn_vectors::stored::groups;

fn main() -> io::Result<()> {
    let mut out = io::stdout().lock();
    let mut cells = Cells::new();
    for example in heavy::examples() {
        let (checked, read) = time(&mut cells, &example)?;
        writeln!(out, "{:28} check {checked:>12.3?} readout {read:>12.3?}", example.name)?;
    }
    for group in groups() {
        let (mut checked, mut read) = (Duration::ZERO, Duration::ZERO);
        for example in &group.examples {
            let (one, other) = time(&mut cells, example)?;
            checked += one;
            read += other;
        }
        writeln!(out, "{:28} check {checked:>12.3?} readout {read:>12.3?}", group.name)?;
    }
    Ok(())
}

/// How long the check takes, and how long the readout with its own check.
fn time(cells: &mut Cells, example: &Example) -> io::Result<(Duration, Duration)> {
    let Example { day, file, .. } = example;
    let start = Instant::now();
    black_box(check_into(*day, file, &mut cells.lend()));
    let checked = start.elapsed();
    let start = Instant::now();
    black_box(write_readout(*day, file, &mut cells.lend(), &mut io::sink())?);
    Ok((checked, start.elapsed()))
}
