//! A search for the slowest file, by hill climbing over the shapes of slow files:
//!
//! ```text
//! slowest SEED CLIMBS STEPS
//! ```
//!
//! Each climb begins at the slowest of some random shapes, the last one at the slowest shape known; it alters the shape and
//! keeps what takes longer. What counts is the processor time of the proved check and readout together, which is what
//! `proofread` does, estimated from a file with few last steps. At the end of each climb the whole file is timed.

use std::process::ExitCode;
use std::time::Duration;

use yestrwyn::{check_here, readout_piece_here, Cells};
use yestrwyn_comparison::clock::own_time;
use yestrwyn_comparison::rounds::shown;
use yestrwyn_types::limits::FILE_BYTES;
use yestrwyn_vectors::examples::heavy::SLOWEST;
use yestrwyn_vectors::random::SplitMix64;
use yestrwyn_vectors::shapes::Shape;

/// Random shapes before each climb.
const BEGINNINGS: usize = 30;

/// After so many files the slowest is timed again, so that one disturbed time does not end a climb.
const AGAIN: u64 = 12;

/// Last steps of the files that are timed on the way.
const FEW: usize = 24;

/// Room for the longest readout.
const ROOM: usize = 400 << 20;

fn main() -> ExitCode {
    let arguments: Vec<String> = std::env::args().skip(1).collect();
    let numbers: Option<Vec<u64>> = arguments.iter().map(|word| word.parse().ok()).collect();
    let Some(&[seed, climbs, steps]) = numbers.as_deref() else {
        eprintln!("usage: slowest SEED CLIMBS STEPS");
        return ExitCode::FAILURE;
    };
    match yestrwyn::with_stack(|| search(seed, climbs, steps)) {
        Ok(()) => ExitCode::SUCCESS,
        Err(error) => {
            eprintln!("{error}");
            ExitCode::FAILURE
        }
    }
}

/// All climbs, and what each has found.
fn search(seed: u64, climbs: u64, steps: u64) {
    let mut clock = Clock { cells: Cells::new(), output: vec![0; ROOM] };
    for climb in 0..climbs {
        let mut random = SplitMix64::new(seed.wrapping_add(climb));
        let shapes: Vec<Shape> = (0..BEGINNINGS).map(|_| Shape::random(&mut random)).collect();
        let timed = shapes.into_iter().map(|shape| (clock.estimate(&shape), shape));
        if let Some((_, shape)) = timed.max_by_key(|found| found.0) {
            clock.climb(shape, steps, &mut random);
        }
    }
    println!("From the slowest file known:");
    clock.climb(SLOWEST, steps, &mut SplitMix64::new(!seed));
}

/// What a file is timed with.
struct Clock {
    cells: Cells,
    output: Vec<u8>,
}

impl Clock {
    /// The time of the check of a file, and how many clauses it has.
    fn check(&mut self, file: &[u8]) -> (Duration, u16) {
        let start = own_time();
        let answer = check_here(0, file, &mut self.cells.lend());
        (own_time().saturating_sub(start), answer.clauses)
    }

    /// The time of the check of a file and of its lines from a clause on.
    fn read(&mut self, file: &[u8], clause: u16) -> Duration {
        let start = own_time();
        readout_piece_here(0, file, &mut self.cells.lend(), clause, &mut self.output);
        own_time().saturating_sub(start)
    }

    /// The time that all last steps would take, from files with a few of them and with none.
    fn estimate(&mut self, shape: &Shape) -> Duration {
        let (none, few) = (shape.shortened(0), shape.shortened(FEW));
        let (before, clauses) = self.check(&none);
        let steps = few.len().saturating_sub(none.len()) / 16;
        let each = self.read(&few, clauses).saturating_sub(before) / steps.max(1) as u32;
        each * FILE_BYTES.saturating_sub(none.len()).div_euclid(16) as u32
    }

    /// Alters a shape again and again, keeps what takes longer, and prints what comes of it.
    fn climb(&mut self, begin: Shape, steps: u64, random: &mut SplitMix64) {
        let (mut slowest, mut longest) = (begin, self.estimate(&begin));
        for step in 1..=steps {
            let other = slowest.altered(random);
            // A second look, because the first may have been disturbed.
            if self.estimate(&other) > longest {
                let time = self.estimate(&other);
                if time > longest {
                    (longest, slowest) = (time, other);
                }
            }
            if step % AGAIN == 0 {
                longest = self.estimate(&slowest);
            }
        }
        let (check, both) = self.whole(&slowest);
        println!("{}, the check alone {}: {slowest:?}", shown(both), shown(check));
    }

    /// The times of the check alone and of both, for the whole file.
    fn whole(&mut self, shape: &Shape) -> (Duration, Duration) {
        let file = shape.file();
        (self.check(&file).0, self.read(&file, 0))
    }
}
