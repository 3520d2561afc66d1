//! What is answered when a file is converted to the other form.

use std::error::Error;
use std::fmt;

use crate::reason::Reason;

/// Cells of the answer to a conversion, in numbers.
pub const CONVERTED_CELLS: usize = 4;

/// Is the converted file written, or why is it not?
#[derive(Clone, Copy, PartialEq, Eq, Hash, Debug)]
pub enum Converted {
    /// The converted file stands at the start of the output.
    Written {
        /// Its length in bytes, up to 65,536, or up to 65,520 in the new form.
        length: u32,
    },
    /// Nothing is written.
    Refused(ConversionRefusal),
}

/// Why a file is not converted.
#[derive(Clone, Copy, PartialEq, Eq, Hash, Debug)]
pub struct ConversionRefusal {
    /// The reason: that of the check, or 22; for an output that is too short, 2.
    pub reason: Reason,
    /// 1 where the check refuses the file; 0 where it is about the result, which is an output that is too short, or a
    /// converted file of too many records.
    pub file: u16,
    /// The number of the record in the file; 0 where `file` is 0, and for reasons 1 and 2.
    pub record: u16,
}

impl ConversionRefusal {
    /// A refusal by the check of the file.
    pub fn of_the_file(reason: Reason, record: u16) -> ConversionRefusal {
        ConversionRefusal { reason, file: 1, record }
    }

    /// A refusal that is about the result.
    pub fn of_the_result(reason: Reason) -> ConversionRefusal {
        ConversionRefusal { reason, file: 0, record: 0 }
    }
}

impl Converted {
    /// The length of the converted file, if it is written.
    pub fn length(self) -> Option<usize> {
        match self {
            Converted::Written { length } => usize::try_from(length).ok(),
            Converted::Refused(_) => None,
        }
    }

    /// Four numbers: 0 written, 2 refused; the length or the reason; 1 if the check refuses the file; the record.
    pub fn numbers(self) -> [u32; CONVERTED_CELLS] {
        match self {
            Converted::Written { length } => [0, length, 0, 0],
            Converted::Refused(ConversionRefusal { reason, file, record }) => {
                [2, reason.number().into(), file.into(), record.into()]
            }
        }
    }

    /// The answer that four numbers stand for. Whatever does not begin with 0 is a refusal; in a refusal a number over 65,535,
    /// which no conversion gives, is read as 65,535.
    pub fn from_numbers(numbers: [u32; CONVERTED_CELLS]) -> Converted {
        let [kind, what, file, record] = numbers;
        if kind == 0 {
            return Converted::Written { length: what };
        }
        let [reason, file, record] =
            [what, file, record].map(|number| u16::try_from(number).unwrap_or(u16::MAX));
        Converted::Refused(ConversionRefusal { reason: Reason::from_number(reason), file, record })
    }
}

/// The verdict on the file, `refused 5 at 3`; of the result `refused 22`.
impl fmt::Display for ConversionRefusal {
    fn fmt(&self, out: &mut fmt::Formatter<'_>) -> fmt::Result {
        let ConversionRefusal { reason, file, record } = self;
        match file {
            0 => write!(out, "refused {}", reason.number()),
            _ => write!(out, "refused {} at {record}", reason.number()),
        }
    }
}

impl Error for ConversionRefusal {
    fn source(&self) -> Option<&(dyn Error + 'static)> {
        Some(&self.reason)
    }
}
