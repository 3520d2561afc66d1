//! Why a file, a question about it, a merge of two files, a conversion, a trim or a call of a board is refused.

use std::error::Error;
use std::fmt;

/// Why a file, a question about it, a merge of two files, a conversion, a trim or a call of a board is refused. The format may get further
/// numbers, so a match needs a last arm; treat what it catches as a refusal too.
#[non_exhaustive]
#[derive(Clone, Copy, PartialEq, Eq, Hash, Debug)]
pub enum Reason {
    /// Length over 65,536 or not a multiple of 16; in the new form over 65,520 or not a multiple of 20.
    Length,
    /// A lent table or board is too short, or the output that a file is to be written to.
    Table,
    /// Kind not 1 to 8; in the new form not 1 to 7.
    Kind,
    /// Byte 1 or a variable number out of its range, or an unused field not zero; in the new form also days that are not zero
    /// beside a record that is no input clause.
    Range,
    /// A symbol, row, clause or literal that does not exist, an argument count that is not the arity, or days for a clause
    /// that is not an input clause.
    Missing,
    /// A row equal to an earlier row. No check gives this any more, since such a row is taken as the earlier one;
    /// the number stays reserved, so that an answer stored by an earlier version can still be read.
    Repeated,
    /// A literal whose row is a variable.
    VariableLiteral,
    /// Resolve on equal signs, factor on opposite signs or on one literal twice.
    Signs,
    /// A result of over 128 literals or with a maximum index over 4,096.
    TooLarge,
    /// Symbols differ.
    Clash,
    /// The variable occurs in what it would be bound to.
    Occurs,
    /// Work 16,385 would begin.
    Work,
    /// A binding is to be added and 8,192 are held.
    Bindings,
    /// The right literals of a step do not strictly rise. This comes after 5 and before 8.
    Order,
    /// Two clauses are not compared: the file does not stand, or one of them is not an input clause of it. No check gives
    /// this, only the question whether one clause covers another.
    NoComparison,
    /// The first day is after the last, of a clause that is given its days. This comes after 5, and in the new form before 7.
    Crossed,
    /// One of two files that are to be merged holds a step. No check gives this and the next two, only a merge.
    MergedStep,
    /// Of two files that are to be merged, neither's list of symbols begins the other's: two symbols of one number differ in
    /// their arity.
    MergedSymbols,
    /// The merged file would have over 4,096 records.
    MergedLength,
    /// An input clause is to be withdrawn or returned, and there is none of that number: it is derived, or not there at all. No
    /// check gives this and the next one, only a call of a board.
    NotAnInput,
    /// The clause is in that condition already: withdrawn where it is to be withdrawn, present where it is to be returned.
    Already,
    /// A file is to be converted to the other form and would have too many records there: over 3,276 in the new form, over 4,096
    /// in the old. No check gives this, only a conversion.
    ConvertedLength,
    /// A file is to be trimmed to what its accepted clause uses, and stands, but is not accepted on that day. No check gives this, only
    /// a trim.
    NotAccepted,
    /// A number that this version does not know: a refusal all the same.
    Other(u16),
}

/// The reasons that have a name, from number 1 on.
const NAMED: [Reason; 23] = [
    Reason::Length,
    Reason::Table,
    Reason::Kind,
    Reason::Range,
    Reason::Missing,
    Reason::Repeated,
    Reason::VariableLiteral,
    Reason::Signs,
    Reason::TooLarge,
    Reason::Clash,
    Reason::Occurs,
    Reason::Work,
    Reason::Bindings,
    Reason::Order,
    Reason::NoComparison,
    Reason::Crossed,
    Reason::MergedStep,
    Reason::MergedSymbols,
    Reason::MergedLength,
    Reason::NotAnInput,
    Reason::Already,
    Reason::ConvertedLength,
    Reason::NotAccepted,
];

impl Reason {
    /// The number of this reason, as readouts print it.
    pub fn number(self) -> u16 {
        match self {
            Reason::Length => 1,
            Reason::Table => 2,
            Reason::Kind => 3,
            Reason::Range => 4,
            Reason::Missing => 5,
            Reason::Repeated => 6,
            Reason::VariableLiteral => 7,
            Reason::Signs => 8,
            Reason::TooLarge => 9,
            Reason::Clash => 10,
            Reason::Occurs => 11,
            Reason::Work => 12,
            Reason::Bindings => 13,
            Reason::Order => 14,
            Reason::NoComparison => 15,
            Reason::Crossed => 16,
            Reason::MergedStep => 17,
            Reason::MergedSymbols => 18,
            Reason::MergedLength => 19,
            Reason::NotAnInput => 20,
            Reason::Already => 21,
            Reason::ConvertedLength => 22,
            Reason::NotAccepted => 23,
            Reason::Other(number) => number,
        }
    }

    /// The reason of a number.
    pub fn from_number(number: u16) -> Reason {
        let named = NAMED.into_iter().find(|reason| reason.number() == number);
        named.unwrap_or(Reason::Other(number))
    }
}

impl fmt::Display for Reason {
    fn fmt(&self, out: &mut fmt::Formatter<'_>) -> fmt::Result {
        out.write_str(match self {
            Reason::Length => {
                "the length is over 65,536 bytes or not a multiple of 16, or in the new form over 65,520 or not of 20"
            }
            Reason::Table => "a lent table, board or output is too short",
            Reason::Kind => "the kind is not 1 to 8, or is 8 in the new form",
            Reason::Range => {
                "byte 1 or the variable number is out of its range, or an unused field or day is not zero"
            }
            Reason::Missing => {
                "a symbol, row, clause or literal does not exist, the number of arguments is not the arity, or a \
                 clause that is given its days is not an input clause"
            }
            Reason::Repeated => "the row is equal to an earlier one",
            Reason::VariableLiteral => "the row of a literal is a variable",
            Reason::Signs => "the signs do not fit, or a literal is factored with itself",
            Reason::TooLarge => "the result would have over 128 literals or a maximum index over 4,096",
            Reason::Clash => "two different symbols meet",
            Reason::Occurs => "a variable would become something in which it occurs",
            Reason::Work => "the step would do more than 16,384 work",
            Reason::Bindings => "a binding is to be added and 8,192 are held",
            Reason::Order => "the right literals of the step do not strictly rise",
            Reason::NoComparison => "the file does not stand, or a clause named is not an input clause of it",
            Reason::Crossed => "the first day is after the last",
            Reason::MergedStep => "a file that is to be merged holds a step",
            Reason::MergedSymbols => "of two files that are to be merged, neither list of symbols begins the other",
            Reason::MergedLength => "the merged file would have over 4,096 records",
            Reason::NotAnInput => "there is no input clause of that number",
            Reason::Already => "the clause is in that condition already",
            Reason::ConvertedLength => "the converted file would have too many records for its form",
            Reason::NotAccepted => "the file stands but is not accepted on that day",
            Reason::Other(number) => return write!(out, "reason {number}"),
        })
    }
}

impl Error for Reason {}
