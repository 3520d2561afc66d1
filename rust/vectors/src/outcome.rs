//! Everything that a check and the two readouts give for one file, in one value: for tests and vectors.

use yestrwyn_second::{canonical_readout_into, check_counting, readout_into, StepWork};
use yestrwyn_types::{Answer, Cells};

/// The answer, the named parts of the four tables, the work of each step and the readouts.
#[derive(Clone, PartialEq, Eq, Debug)]
pub struct Outcome {
    /// Verdict and counts.
    pub answer: Answer,
    /// The four tables.
    pub cells: Cells,
    /// The work of each step that came as far as its outlines.
    pub works: Vec<StepWork>,
    /// The readout.
    pub readout: Vec<u8>,
    /// The second readout.
    pub canonical: Vec<u8>,
}

/// Checks a file on day 0, with tables that are just long enough and zero before.
pub fn outcome(file: &[u8]) -> Outcome {
    outcome_on(0, file)
}

/// The same on any day.
pub fn outcome_on(day: u16, file: &[u8]) -> Outcome {
    let mut cells = Cells::new();
    let mut works = Vec::new();
    let answer = check_counting(day, file, &mut cells.lend(), &mut works);
    let readout = readout_into(day, file, &mut cells.lend());
    let canonical = canonical_readout_into(day, file, &mut cells.lend());
    Outcome { answer, cells, works, readout, canonical }
}

impl Outcome {
    /// The cells of each table that hold something by the counts.
    pub fn used(&self) -> [&[u16]; 4] {
        let Answer { symbols, rows, clauses, bindings, .. } = self.answer;
        let counts = [(symbols, 1), (rows, 1), (clauses, 5), (bindings, 4)];
        let mut used = self.tables();
        for (cells, (count, width)) in used.iter_mut().zip(counts) {
            *cells = &cells[..(usize::from(count) * width).min(cells.len())];
        }
        used
    }

    /// The named parts of the four tables.
    pub fn tables(&self) -> [&[u16]; 4] {
        let Cells { symbols, rows, clauses, bindings } = &self.cells;
        [symbols, rows, clauses, bindings]
    }
}
