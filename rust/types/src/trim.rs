//! What is answered when a file is trimmed to what its accepted clause uses.

use std::error::Error;
use std::fmt;

use crate::reason::Reason;

/// Cells of the answer to a trim, in numbers.
pub const TRIMMED_CELLS: usize = 4;

/// Is the trimmed file written, or why is it not?
#[derive(Clone, Copy, PartialEq, Eq, Hash, Debug)]
pub enum Trimmed {
    /// The trimmed file stands at the start of the output.
    Written {
        /// Its length in bytes, at most that of the file.
        length: u32,
    },
    /// Nothing is written.
    Refused(TrimRefusal),
}

/// Why a file is not trimmed.
#[derive(Clone, Copy, PartialEq, Eq, Hash, Debug)]
pub struct TrimRefusal {
    /// The reason: that of the check, or 23; for an output that is too short, 2.
    pub reason: Reason,
    /// 1 where it is about the file, which the check refuses or does not accept; 0 for an output that is too short.
    pub file: u16,
    /// The number of the record that the check refuses; 0 for reasons 1, 2 and 23.
    pub record: u16,
}

impl TrimRefusal {
    /// A refusal by the check of the file.
    pub fn of_the_file(reason: Reason, record: u16) -> TrimRefusal {
        TrimRefusal { reason, file: 1, record }
    }

    /// The file stands, but is not accepted on the day.
    pub fn not_accepted() -> TrimRefusal {
        TrimRefusal::of_the_file(Reason::NotAccepted, 0)
    }

    /// The output is too short.
    pub fn of_the_output() -> TrimRefusal {
        TrimRefusal { reason: Reason::Table, file: 0, record: 0 }
    }
}

impl Trimmed {
    /// The length of the trimmed file, if it is written.
    pub fn length(self) -> Option<usize> {
        match self {
            Trimmed::Written { length } => usize::try_from(length).ok(),
            Trimmed::Refused(_) => None,
        }
    }

    /// Four numbers: 0 written, 2 refused; the length or the reason; 1 if it is about the file; the record.
    pub fn numbers(self) -> [u32; TRIMMED_CELLS] {
        match self {
            Trimmed::Written { length } => [0, length, 0, 0],
            Trimmed::Refused(TrimRefusal { reason, file, record }) => {
                [2, reason.number().into(), file.into(), record.into()]
            }
        }
    }

    /// The answer that four numbers stand for. Whatever does not begin with 0 is a refusal; in a refusal a number over 65,535,
    /// which no trim gives, is read as 65,535.
    pub fn from_numbers(numbers: [u32; TRIMMED_CELLS]) -> Trimmed {
        let [kind, what, file, record] = numbers;
        if kind == 0 {
            return Trimmed::Written { length: what };
        }
        let [reason, file, record] =
            [what, file, record].map(|number| u16::try_from(number).unwrap_or(u16::MAX));
        Trimmed::Refused(TrimRefusal { reason: Reason::from_number(reason), file, record })
    }
}

/// The verdict on the file, `refused 5 at 3`, or `refused 23 at 0`; of the output `refused 2`.
impl fmt::Display for TrimRefusal {
    fn fmt(&self, out: &mut fmt::Formatter<'_>) -> fmt::Result {
        let TrimRefusal { reason, file, record } = self;
        match file {
            0 => write!(out, "refused {}", reason.number()),
            _ => write!(out, "refused {} at {record}", reason.number()),
        }
    }
}

impl Error for TrimRefusal {
    fn source(&self) -> Option<&(dyn Error + 'static)> {
        Some(&self.reason)
    }
}
