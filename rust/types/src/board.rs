//! What a board answers: when it is opened, and when an input clause is withdrawn or returned; and what its cells say.

use std::error::Error;
use std::fmt;

use crate::reason::Reason;

/// Cells of a board's answer, in numbers.
pub const BOARD_ANSWER_CELLS: usize = 3;

/// What a board answers when it is opened and after each call.
#[derive(Clone, Copy, PartialEq, Eq, Hash, Debug)]
pub enum BoardAnswer {
    /// The lowest standing empty clause whose input clauses are all in force on the board's day, or none.
    Answered(Option<u16>),
    /// The board is not opened, or not altered.
    Refused(BoardRefusal),
}

/// Why a board is not opened, or a clause neither withdrawn nor returned.
#[derive(Clone, Copy, PartialEq, Eq, Hash, Debug)]
pub struct BoardRefusal {
    /// The reason: that of the check where a board is to be opened, 20 or 21 of a call; for a board that is too short, 2.
    pub reason: Reason,
    /// The record that the check refuses; 0 for reasons 1, 2, 20 and 21.
    pub record: u16,
}

impl BoardRefusal {
    /// A refusal that is about no record.
    pub fn of_the_call(reason: Reason) -> BoardRefusal {
        BoardRefusal { reason, record: 0 }
    }
}

impl BoardAnswer {
    /// The clause answered, if any, or why nothing is.
    pub fn result(self) -> Result<Option<u16>, BoardRefusal> {
        match self {
            BoardAnswer::Answered(clause) => Ok(clause),
            BoardAnswer::Refused(refusal) => Err(refusal),
        }
    }

    /// Three numbers: 0 none, 1 a clause, 2 refused; the clause, the reason, or 0; the record.
    pub fn numbers(self) -> [u16; BOARD_ANSWER_CELLS] {
        match self {
            BoardAnswer::Answered(None) => [0, 0, 0],
            BoardAnswer::Answered(Some(clause)) => [1, clause, 0],
            BoardAnswer::Refused(BoardRefusal { reason, record }) => [2, reason.number(), record],
        }
    }

    /// The answer that three numbers stand for. Whatever does not begin with 0 or 1 is a refusal.
    pub fn from_numbers(numbers: [u16; BOARD_ANSWER_CELLS]) -> BoardAnswer {
        let [kind, what, record] = numbers;
        match kind {
            0 => BoardAnswer::Answered(None),
            1 => BoardAnswer::Answered(Some(what)),
            _ => BoardAnswer::Refused(BoardRefusal { reason: Reason::from_number(what), record }),
        }
    }
}

impl From<Result<Option<u16>, BoardRefusal>> for BoardAnswer {
    fn from(result: Result<Option<u16>, BoardRefusal>) -> BoardAnswer {
        match result {
            Ok(clause) => BoardAnswer::Answered(clause),
            Err(refusal) => BoardAnswer::Refused(refusal),
        }
    }
}

/// `none`, `clause 4` or `refused 20 at 0`.
impl fmt::Display for BoardAnswer {
    fn fmt(&self, out: &mut fmt::Formatter<'_>) -> fmt::Result {
        match self {
            BoardAnswer::Answered(None) => write!(out, "none"),
            BoardAnswer::Answered(Some(clause)) => write!(out, "clause {clause}"),
            BoardAnswer::Refused(refusal) => refusal.fmt(out),
        }
    }
}

/// As a verdict is displayed: `refused 20 at 0`.
impl fmt::Display for BoardRefusal {
    fn fmt(&self, out: &mut fmt::Formatter<'_>) -> fmt::Result {
        write!(out, "refused {} at {}", self.reason.number(), self.record)
    }
}

impl Error for BoardRefusal {
    fn source(&self) -> Option<&(dyn Error + 'static)> {
        Some(&self.reason)
    }
}

/// What a board has of a clause.
#[derive(Clone, Copy, PartialEq, Eq, Hash, Debug)]
pub struct ClauseState {
    /// Are all input clauses of its derivation in force on the board's day? Of an input clause: is it itself?
    pub in_force: bool,
    /// Are all input clauses of its derivation present? Of an input clause: is it itself?
    pub stands: bool,
}

impl ClauseState {
    /// The cell of a clause in this state: 4, and 2 more if it is in force, and 1 more if it stands; and eight times the number of
    /// its last child, the last clause that has it for a parent, which is 0 if none has. A last child is below 8,192, or its higher
    /// bits are lost.
    pub fn cell(self, last_child: u16) -> u16 {
        last_child << 3 | 4 | u16::from(self.in_force) << 1 | u16::from(self.stands)
    }

    /// The last child that a cell has.
    pub fn last_child(cell: u16) -> u16 {
        cell / 8
    }

    /// What a cell says of its clause; nothing where there is no clause.
    pub fn from_cell(cell: u16) -> Option<ClauseState> {
        (cell >= 4).then_some(ClauseState { in_force: cell / 2 % 2 == 1, stands: cell % 2 == 1 })
    }
}
