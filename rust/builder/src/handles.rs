//! What a file is made of, each a type of its own. A handle belongs to the builder that made it, and is a number there: whoever
//! gives it to another builder names what that one has under this number, if it has it.
//!
//! One cannot be given for another:
//!
//! ```compile_fail,E0308
//! # use yestrwyn_builder::{BuildError, FileBuilder};
//! let mut file = FileBuilder::new();
//! let f = file.symbol(1)?;
//! let x = file.variable(0)?;
//! file.apply(x, &[f])?;
//! # Ok::<(), BuildError>(())
//! ```

/// A symbol, with its arity.
#[derive(Clone, Copy, PartialEq, Eq, Hash, Debug)]
pub struct Symbol {
    pub(crate) number: u16,
    pub(crate) arity: u8,
}

impl Symbol {
    /// Its number among the symbols of the file, which the readout prints after `s`.
    pub fn number(self) -> u16 {
        self.number
    }

    /// How many arguments it takes.
    pub fn arity(self) -> u8 {
        self.arity
    }
}

/// A row: a term that stands once in the file, however often it is used.
#[derive(Clone, Copy, PartialEq, Eq, Hash, Debug)]
pub struct Row(pub(crate) u16);

impl Row {
    /// Its number among the rows of the file.
    pub fn number(self) -> u16 {
        self.0
    }
}

/// A row with a sign: a literal of an input clause that is to be written.
#[derive(Clone, Copy, PartialEq, Eq, Hash, Debug)]
pub struct Signed {
    pub(crate) positive: bool,
    pub(crate) atom: Row,
}

/// A positive literal.
pub fn pos(atom: Row) -> Signed {
    Signed { positive: true, atom }
}

/// A negative literal.
pub fn neg(atom: Row) -> Signed {
    Signed { positive: false, atom }
}

/// A clause: an input clause, or what a step has made.
#[derive(Clone, Copy, PartialEq, Eq, Hash, Debug)]
pub struct Clause(pub(crate) u16);

impl Clause {
    /// Its number among the clauses of the file, with which its line in the readout begins.
    pub fn number(self) -> u16 {
        self.0
    }

    /// Its literal of a number. Literals are numbered from 1. Whether there is one of this number is
    /// tested where it is used.
    pub fn literal(self, number: u16) -> Literal {
        Literal { clause: self, number }
    }
}

/// A literal of a clause.
#[derive(Clone, Copy, PartialEq, Eq, Hash, Debug)]
pub struct Literal {
    pub(crate) clause: Clause,
    pub(crate) number: u16,
}

impl Literal {
    /// The clause that it belongs to.
    pub fn clause(self) -> Clause {
        self.clause
    }

    /// Its number in the clause, from 1.
    pub fn number(self) -> u16 {
        self.number
    }
}
