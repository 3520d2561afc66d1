//! What is answered to the question whether one input clause covers another.

use crate::reason::Reason;

/// Cells of a covering in numbers.
pub const COVERING_CELLS: usize = 10;

/// Does the first clause cover the second?
#[derive(Clone, Copy, PartialEq, Eq, Hash, Debug)]
pub enum Outcome {
    /// One substitution for the variables of the first turns each of its literals into one of the second.
    Yes,
    /// No substitution does.
    No,
    /// The two are not compared.
    Refused {
        /// Why they are not.
        reason: Reason,
        /// The record; always 0 today.
        record: u16,
    },
}

/// The outcome, and with a yes the literals that were chosen.
#[derive(Clone, Copy, PartialEq, Eq, Hash, Debug)]
pub struct Covering {
    /// Yes, no or refused.
    pub outcome: Outcome,
    /// For each literal of the first clause the number, from 1, of that of the second which it becomes; zeros after them.
    /// Of all choices that one substitution makes, it is the earliest, compared from the first literal on. Zeros without a
    /// yes.
    pub literals: [u16; 7],
}

impl Covering {
    /// A yes with the literals chosen.
    pub fn yes(literals: [u16; 7]) -> Covering {
        Covering { outcome: Outcome::Yes, literals }
    }

    /// A no.
    pub fn no() -> Covering {
        Covering { outcome: Outcome::No, literals: [0; 7] }
    }

    /// The refusal: the file does not stand, or a clause named is not an input clause of it.
    pub fn refused() -> Covering {
        let outcome = Outcome::Refused { reason: Reason::NoComparison, record: 0 };
        Covering { outcome, literals: [0; 7] }
    }

    /// Does the first clause cover the second?
    pub fn is_yes(&self) -> bool {
        self.outcome == Outcome::Yes
    }

    /// Ten numbers: 0 no, 1 yes, 2 refused; the reason or 0; the record; the seven literals.
    pub fn numbers(&self) -> [u16; COVERING_CELLS] {
        let [kind, reason, record] = match self.outcome {
            Outcome::No => [0, 0, 0],
            Outcome::Yes => [1, 0, 0],
            Outcome::Refused { reason, record } => [2, reason.number(), record],
        };
        let [a, b, c, d, e, f, g] = self.literals;
        [kind, reason, record, a, b, c, d, e, f, g]
    }

    /// The covering that ten numbers stand for. Whatever does not begin with 0 or 1 is a refusal.
    pub fn from_numbers(numbers: [u16; COVERING_CELLS]) -> Covering {
        let [kind, reason, record, literals @ ..] = numbers;
        let outcome = match kind {
            0 => Outcome::No,
            1 => Outcome::Yes,
            _ => Outcome::Refused { reason: Reason::from_number(reason), record },
        };
        Covering { outcome, literals }
    }
}
