//! Why a record is not written, or a file not read.

use std::error::Error;
use std::fmt;

use yestrwyn_types::limits::{
    ARITY, FILE_BYTES, INPUT_LITERALS, NEW_FILE_BYTES, NEW_RECORDS, NEW_RECORD_BYTES, RECORDS, RECORD_BYTES,
    RIGHT_LITERALS, VARIABLES,
};
use yestrwyn_types::{NameError, Reason};

/// Why a record is not written. The file stays as it was.
#[non_exhaustive]
#[derive(Clone, Copy, PartialEq, Eq, Debug)]
pub enum BuildError {
    /// The file has 4,096 records, or 3,276 in the new form.
    Full,
    /// A symbol cannot have this arity.
    Arity(u8),
    /// There is no variable of this number.
    Variable(u16),
    /// As many arguments as were given, to a symbol of another arity.
    Arguments {
        /// How many arguments the symbol takes.
        arity: u8,
        /// How many were given.
        given: usize,
    },
    /// An input clause cannot have so many literals.
    Literals(usize),
    /// The atom of a literal is a variable.
    VariableLiteral,
    /// A symbol, row or clause of another builder. It is found only where its number is past what this builder has made,
    /// or a symbol's arity is another; otherwise it names this builder's own of that number.
    Foreign,
    /// The file has no symbol of this number.
    NoSymbol {
        /// The number that was asked for; the first symbol has number 0.
        number: u16,
        /// How many symbols the file has.
        symbols: usize,
    },
    /// The file has no row of this number.
    NoRow {
        /// The number that was asked for; the first row has number 0.
        number: u16,
        /// How many rows the file has.
        rows: usize,
    },
    /// The file has no clause of this number.
    NoClause {
        /// The number that was asked for; the first clause has number 0.
        number: u16,
        /// How many clauses the file has.
        clauses: usize,
    },
    /// The clause has no literal of this number.
    NoLiteral {
        /// The number that was asked for; the first literal has number 1.
        number: u16,
        /// How many literals the clause has.
        literals: u16,
    },
    /// A step cannot resolve a literal with so many right ones, or with none.
    RightLiterals(usize),
    /// Literals of two clauses: in a factor, or as the right ones of a step.
    TwoClauses,
    /// A clause that a step has made is given days; only an input clause can be.
    Derived(u16),
    /// A first day after the last.
    Days {
        /// The first day that was asked for.
        first: u16,
        /// The last.
        last: u16,
    },
    /// A symbol is given a word that is no name.
    Name(NameError),
    /// A symbol is given the name that another one has, the symbol of this number.
    NameTaken(u16),
    /// The step does not stand.
    Refused(Reason),
}

impl fmt::Display for BuildError {
    fn fmt(&self, out: &mut fmt::Formatter<'_>) -> fmt::Result {
        match self {
            BuildError::Full => {
                write!(out, "the file has {RECORDS} records already, or {NEW_RECORDS} in the new form")
            }
            BuildError::Arity(arity) => write!(out, "an arity of {arity}, over {ARITY}"),
            BuildError::Variable(number) => write!(out, "variable {number}, over {}", VARIABLES - 1),
            BuildError::Arguments { arity, given } => {
                write!(out, "{given} arguments to a symbol of arity {arity}")
            }
            BuildError::Literals(count) => write!(out, "{count} literals, over {INPUT_LITERALS}"),
            BuildError::VariableLiteral => write!(out, "the atom of a literal is a variable"),
            BuildError::Foreign => write!(out, "a symbol, row or clause of another file"),
            BuildError::NoSymbol { number, symbols } => {
                write!(out, "symbol {number} of a file that has {symbols}, numbered from 0")
            }
            BuildError::NoRow { number, rows } => {
                write!(out, "row {number} of a file that has {rows}, numbered from 0")
            }
            BuildError::NoClause { number, clauses } => {
                write!(out, "clause {number} of a file that has {clauses}, numbered from 0")
            }
            BuildError::NoLiteral { number, literals } => {
                write!(out, "literal {number} of a clause that has {literals}, numbered from 1")
            }
            BuildError::RightLiterals(count) => {
                write!(out, "{count} right literals, not 1 to {RIGHT_LITERALS}")
            }
            BuildError::TwoClauses => write!(out, "literals of two clauses, where a step takes those of one"),
            BuildError::Derived(clause) => {
                write!(out, "days for clause {clause}, which a step has made: only an input clause has days")
            }
            BuildError::Days { first, last } => {
                write!(out, "day {first} as the first, after the last, {last}")
            }
            BuildError::Name(error) => write!(out, "no name of a symbol: {error}"),
            BuildError::NameTaken(symbol) => write!(out, "the name is that of s{symbol}"),
            BuildError::Refused(reason) => write!(out, "refused with {}: {reason}", reason.number()),
        }
    }
}

impl Error for BuildError {
    fn source(&self) -> Option<&(dyn Error + 'static)> {
        match self {
            BuildError::Name(error) => Some(error),
            BuildError::Refused(reason) => Some(reason),
            _ => None,
        }
    }
}

/// Why a file is not read.
#[non_exhaustive]
#[derive(Clone, Copy, PartialEq, Eq, Debug)]
pub enum ReadError {
    /// So many bytes in a file of the old form: over 65,536, or not a multiple of 16.
    Length(usize),
    /// So many bytes in a file of the new form: over 65,520, or not a multiple of 20.
    NewLength(usize),
    /// A record that the check would refuse.
    Record {
        /// Its number in the file; the first record has number 0.
        record: u16,
        /// The reason that the check would give.
        reason: Reason,
    },
}

impl fmt::Display for ReadError {
    fn fmt(&self, out: &mut fmt::Formatter<'_>) -> fmt::Result {
        match self {
            ReadError::Length(bytes) => {
                write!(out, "a file of {bytes} bytes, over {FILE_BYTES} or not a multiple of {RECORD_BYTES}")
            }
            ReadError::NewLength(bytes) => {
                write!(
                    out,
                    "a file of {bytes} bytes, over {NEW_FILE_BYTES} or not a multiple of {NEW_RECORD_BYTES}"
                )
            }
            ReadError::Record { record, reason } => {
                write!(out, "record {record} is refused with {}: {reason}", reason.number())
            }
        }
    }
}

impl Error for ReadError {
    fn source(&self) -> Option<&(dyn Error + 'static)> {
        match self {
            ReadError::Length(_) | ReadError::NewLength(_) => None,
            ReadError::Record { reason, .. } => Some(reason),
        }
    }
}
