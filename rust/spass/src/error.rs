//! Why a proof is not converted.

use std::error::Error;
use std::fmt;

use yestrwyn_builder::{BuildError, Reason};
use yestrwyn_types::limits::{ARITY, BINDINGS, INDEX, INPUT_LITERALS, LITERALS, RECORDS, VARIABLES, WORK};

/// Why a proof is not converted, with the line of the text and the step of the proof that it is about.
#[derive(Clone, PartialEq, Eq, Debug)]
pub struct SpassError {
    /// The line of the text, from 1; none where it is about the text as a whole.
    pub line: Option<usize>,
    /// The step of the proof: SPASS's own number of the clause and its inference, such as `12 (Res)`.
    pub step: Option<String>,
    /// What is wrong there.
    pub fault: Fault,
}

/// What is wrong.
#[non_exhaustive]
#[derive(Clone, PartialEq, Eq, Debug)]
pub enum Fault {
    /// There is no proof in the text; with what SPASS says instead, if it says anything.
    NoProof(Option<&'static str>),
    /// The proof has no empty clause.
    NoEmptyClause,
    /// Something else was expected.
    Expected(&'static str),
    /// A term has more levels than are read.
    Depth(usize),
    /// A clause of this number was there before.
    Twice,
    /// A parent of this number was not there before.
    NoParent(u32),
    /// A symbol has two arities.
    TwoArities(String),
    /// A constant has a name that SPASS prints for a variable too.
    VariableName(String),
    /// The step is about equality.
    Equality,
    /// The step splits a clause in a way that is not converted.
    Splitting,
    /// An input clause has no literals.
    EmptyInput,
    /// An input clause has so many literals.
    Literals(usize),
    /// An input clause has so many variables.
    Variables(usize),
    /// A symbol has so many arguments.
    Arguments(String, usize),
    /// No resolution and factoring steps were found that give the clause of the step.
    NotFound,
    /// A clause would be made of so many uses of input clauses.
    Uses(usize),
    /// A record of the file is not written.
    Build(BuildError),
}

impl SpassError {
    /// An error about the text as a whole.
    pub(crate) fn whole(fault: Fault) -> SpassError {
        SpassError { line: None, step: None, fault }
    }
}

/// `line 40, step 12 (Res): ..`.
impl fmt::Display for SpassError {
    fn fmt(&self, out: &mut fmt::Formatter<'_>) -> fmt::Result {
        if let Some(line) = self.line {
            write!(out, "line {line}")?;
            if let Some(step) = &self.step {
                write!(out, ", step {step}")?;
            }
            write!(out, ": ")?;
        }
        self.fault.fmt(out)
    }
}

impl fmt::Display for Fault {
    fn fmt(&self, out: &mut fmt::Formatter<'_>) -> fmt::Result {
        match self {
            Fault::NoProof(None) => write!(out, "no proof in this text: have SPASS print it with -DocProof"),
            Fault::NoProof(Some(says)) => write!(out, "no proof in this text: SPASS says {says:?}"),
            Fault::NoEmptyClause => write!(out, "the proof has no empty clause"),
            Fault::Expected(what) => write!(out, "{what} is expected"),
            Fault::Depth(most) => write!(out, "a term of more than {most} levels"),
            Fault::Twice => write!(out, "a clause of this number stands before it"),
            Fault::NoParent(number) => {
                write!(out, "clause {number}, which it names, does not stand before it")
            }
            Fault::TwoArities(name) => write!(out, "{name} has other numbers of arguments before it"),
            Fault::VariableName(name) => {
                write!(
                    out,
                    "{name} is a constant, and SPASS prints a variable in the same way: rename the constant"
                )
            }
            Fault::Equality => write!(out, "equality, which a proof file knows nothing of"),
            Fault::Splitting => {
                write!(out, "a clause is split in a way that is not converted: run SPASS with -Splits=0 -IORe=1 -IOFc=1")
            }
            _ => self.limit(out),
        }
    }
}

impl Fault {
    /// Faults that are about a limit of the format, or of the search.
    fn limit(&self, out: &mut fmt::Formatter<'_>) -> fmt::Result {
        match self {
            Fault::EmptyInput => write!(out, "an input clause without literals, which is not converted"),
            Fault::Literals(count) => {
                write!(out, "an input clause of {count} literals, over {INPUT_LITERALS}: give some of them a word of their own")
            }
            Fault::Variables(count) => write!(out, "an input clause of {count} variables, over {VARIABLES}"),
            Fault::Arguments(name, count) => write!(out, "{name} has {count} arguments, over {ARITY}"),
            Fault::Build(BuildError::Full) => write!(out, "the file would have over {RECORDS} records"),
            Fault::Build(BuildError::Refused(Reason::TooLarge)) => {
                write!(out, "a clause of over {LITERALS} literals")
            }
            Fault::Uses(uses) => {
                write!(out, "a clause made of {uses} uses of input clauses, over {INDEX}: look for a shorter proof, with -Splits=0 for one")
            }
            Fault::Build(BuildError::Refused(Reason::Work)) => {
                write!(out, "a step that does over {WORK} work")
            }
            Fault::Build(BuildError::Refused(Reason::Bindings)) => {
                write!(out, "the clauses would hold over {BINDINGS} bindings")
            }
            Fault::Build(error) => write!(out, "{error}"),
            _ => write!(out, "no resolution and factoring steps were found that give this clause"),
        }
    }
}

impl Error for SpassError {}
