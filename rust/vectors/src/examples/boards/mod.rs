//! Boards by name: a file, a day, and calls that withdraw and return its input clauses.

mod calls;
mod files;

use yestrwyn_types::limits::BOARD_CELLS;

/// A call about one clause.
#[derive(Clone, Copy, PartialEq, Eq, Debug)]
pub enum Call {
    Withdraw(u16),
    Return(u16),
}

impl Call {
    /// The clause that it is about.
    pub fn clause(self) -> u16 {
        match self {
            Call::Withdraw(clause) | Call::Return(clause) => clause,
        }
    }

    /// A call about another clause.
    pub fn about(self, clause: u16) -> Call {
        match self {
            Call::Withdraw(_) => Call::Withdraw(clause),
            Call::Return(_) => Call::Return(clause),
        }
    }

    /// The word for it.
    pub fn word(self) -> &'static str {
        match self {
            Call::Withdraw(_) => "withdraw",
            Call::Return(_) => "return",
        }
    }
}

/// A board that is opened for a file on a day, and the calls after that.
#[derive(Clone, Debug)]
pub struct Script {
    pub name: String,
    pub day: u16,
    pub file: Vec<u8>,
    /// How many cells the board is lent; with fewer than 4,097 every call is refused.
    pub cells: usize,
    pub calls: Vec<Call>,
}

impl Script {
    /// A named script, with a board that is just long enough.
    pub fn new(name: &str, day: u16, file: Vec<u8>, calls: &[Call]) -> Script {
        Script { name: name.to_string(), day, file, cells: BOARD_CELLS, calls: calls.to_vec() }
    }

    /// The same with a board of so many cells.
    pub fn lent(self, cells: usize) -> Script {
        Script { cells, ..self }
    }
}

/// All of them: who uses what, several empty clauses and their days; then refused calls, files and boards.
pub fn examples() -> Vec<Script> {
    let mut all = files::examples();
    all.extend(calls::examples());
    all
}

/// Each of these clauses withdrawn and then returned.
fn each(clauses: impl IntoIterator<Item = u16>) -> Vec<Call> {
    clauses.into_iter().flat_map(|clause| [Call::Withdraw(clause), Call::Return(clause)]).collect()
}

/// All of these withdrawn, in order, then all returned in the same order.
fn all_of(clauses: &[u16]) -> Vec<Call> {
    let withdrawn = clauses.iter().map(|&clause| Call::Withdraw(clause));
    withdrawn.chain(clauses.iter().map(|&clause| Call::Return(clause))).collect()
}
