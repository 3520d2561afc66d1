//! What a check answers: a verdict and four counts.

use std::fmt;

use crate::reason::Reason;

/// Cells of an answer in numbers.
pub const ANSWER_CELLS: usize = 7;

/// The verdict on a file. It is displayed as the first line of a readout, without the line feed.
#[derive(Clone, Copy, PartialEq, Eq, Hash, Debug)]
pub enum Verdict {
    /// Every record stands; the number is that of the first clause without literals whose derivation uses only input
    /// clauses in force on the day of the check.
    Accepted(u16),
    /// Every record stands and no clause is such a one.
    Open,
    /// The record does not stand (record 0 for reasons 1 and 2).
    Refused {
        /// Why it does not.
        reason: Reason,
        /// The number of the record.
        record: u16,
    },
}

impl Verdict {
    /// Is the file accepted?
    pub fn is_accepted(self) -> bool {
        matches!(self, Verdict::Accepted(_))
    }
}

impl fmt::Display for Verdict {
    fn fmt(&self, out: &mut fmt::Formatter<'_>) -> fmt::Result {
        match self {
            Verdict::Accepted(clause) => write!(out, "accepted {clause}"),
            Verdict::Open => write!(out, "open"),
            Verdict::Refused { reason, record } => write!(out, "refused {} at {record}", reason.number()),
        }
    }
}

/// The verdict, and how many symbols, rows, clauses and bindings stand.
#[derive(Clone, Copy, PartialEq, Eq, Hash, Debug)]
pub struct Answer {
    /// Accepted, open or refused.
    pub verdict: Verdict,
    /// How many symbols stand.
    pub symbols: u16,
    /// How many rows.
    pub rows: u16,
    /// How many clauses.
    pub clauses: u16,
    /// How many bindings: the sum of the clauses' fifth cells.
    pub bindings: u16,
}

impl Answer {
    /// A refusal before any record is read.
    pub fn refused_whole(reason: Reason) -> Answer {
        let verdict = Verdict::Refused { reason, record: 0 };
        Answer { verdict, symbols: 0, rows: 0, clauses: 0, bindings: 0 }
    }

    /// Seven numbers: 0 open, 1 accepted, 2 refused; clause or reason; record; the four counts.
    pub fn numbers(&self) -> [u16; ANSWER_CELLS] {
        let [kind, what, record] = match self.verdict {
            Verdict::Open => [0, 0, 0],
            Verdict::Accepted(clause) => [1, clause, 0],
            Verdict::Refused { reason, record } => [2, reason.number(), record],
        };
        [kind, what, record, self.symbols, self.rows, self.clauses, self.bindings]
    }

    /// The answer that seven numbers stand for. Whatever does not begin with 0 or 1 is a refusal.
    pub fn from_numbers(numbers: [u16; ANSWER_CELLS]) -> Answer {
        let [kind, what, record, symbols, rows, clauses, bindings] = numbers;
        let verdict = match kind {
            0 => Verdict::Open,
            1 => Verdict::Accepted(what),
            _ => Verdict::Refused { reason: Reason::from_number(what), record },
        };
        Answer { verdict, symbols, rows, clauses, bindings }
    }
}

impl fmt::Display for Answer {
    fn fmt(&self, out: &mut fmt::Formatter<'_>) -> fmt::Result {
        let Answer { verdict, symbols, rows, clauses, bindings } = self;
        write!(out, "{verdict}: {symbols} symbols, {rows} rows, {clauses} clauses, {bindings} bindings")
    }
}
