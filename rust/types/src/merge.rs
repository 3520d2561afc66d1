//! What is answered when two files are merged into one.

use std::error::Error;
use std::fmt;

use crate::reason::Reason;

/// Cells of the answer to a merge, in numbers.
pub const MERGED_CELLS: usize = 4;

/// Is the merged file written, or why is it not?
#[derive(Clone, Copy, PartialEq, Eq, Hash, Debug)]
pub enum Merged {
    /// The merged file stands at the start of the output.
    Written {
        /// Its length in bytes, up to 65,536.
        length: u32,
    },
    /// Nothing is written.
    Refused(MergeRefusal),
}

/// Why two files are not merged.
#[derive(Clone, Copy, PartialEq, Eq, Hash, Debug)]
pub struct MergeRefusal {
    /// The reason: that of a check, or 17, 18 or 19; for an output that is too short, 2.
    pub reason: Reason,
    /// The file that the record is in: 1 for the first, 2 for the second; 0 where it is about neither alone, which is an
    /// output that is too short, or a merged file of too many records.
    pub file: u16,
    /// The number of the record in that file; 0 where the file is 0, and for reasons 1 and 2.
    pub record: u16,
}

impl MergeRefusal {
    /// A refusal that is about neither file alone.
    pub fn of_neither(reason: Reason) -> MergeRefusal {
        MergeRefusal { reason, file: 0, record: 0 }
    }
}

impl Merged {
    /// The length of the merged file, if it is written.
    pub fn length(self) -> Option<usize> {
        match self {
            Merged::Written { length } => usize::try_from(length).ok(),
            Merged::Refused(_) => None,
        }
    }

    /// Four numbers: 0 written, 2 refused; the length or the reason; the file; the record.
    pub fn numbers(self) -> [u32; MERGED_CELLS] {
        match self {
            Merged::Written { length } => [0, length, 0, 0],
            Merged::Refused(MergeRefusal { reason, file, record }) => {
                [2, reason.number().into(), file.into(), record.into()]
            }
        }
    }

    /// The answer that four numbers stand for. Whatever does not begin with 0 is a refusal; in a refusal a number over 65,535,
    /// which no merge gives, is read as 65,535.
    pub fn from_numbers(numbers: [u32; MERGED_CELLS]) -> Merged {
        let [kind, what, file, record] = numbers;
        if kind == 0 {
            return Merged::Written { length: what };
        }
        let [reason, file, record] =
            [what, file, record].map(|number| u16::try_from(number).unwrap_or(u16::MAX));
        Merged::Refused(MergeRefusal { reason: Reason::from_number(reason), file, record })
    }
}

/// The verdict on the file that is at fault, with its number: `file 2: refused 5 at 3`; of neither file alone `refused 19`.
impl fmt::Display for MergeRefusal {
    fn fmt(&self, out: &mut fmt::Formatter<'_>) -> fmt::Result {
        let MergeRefusal { reason, file, record } = self;
        match file {
            0 => write!(out, "refused {}", reason.number()),
            _ => write!(out, "file {file}: refused {} at {record}", reason.number()),
        }
    }
}

impl Error for MergeRefusal {
    fn source(&self) -> Option<&(dyn Error + 'static)> {
        Some(&self.reason)
    }
}
