//! Clauses that stand, as the running builder hands them out.

use crate::derivation::At;
use crate::handles::{Clause, Literal, Symbol};

/// A clause that a step has made, and its literals.
#[derive(Clone, PartialEq, Eq, Debug)]
pub struct Derived {
    /// The clause.
    pub clause: Clause,
    /// Its literals in order; there are none if the proof is complete.
    pub literals: Vec<Standing>,
}

impl Derived {
    /// Is it the empty clause?
    pub fn is_empty(&self) -> bool {
        self.literals.is_empty()
    }
}

/// A literal of a clause that stands.
#[derive(Clone, Copy, PartialEq, Eq, Debug)]
pub struct Standing {
    /// The literal, to be named by a step.
    pub literal: Literal,
    /// Is it positive?
    pub positive: bool,
    /// Its atom.
    pub atom: Expression,
}

/// A term in a clause, whose variables have the values that the clause's steps have given them.
/// [`RunningBuilder::value`](crate::RunningBuilder::value) looks at it.
#[derive(Clone, Copy, PartialEq, Eq, Hash, Debug)]
pub struct Expression {
    pub(crate) clause: Clause,
    pub(crate) at: At,
}

/// What stands at the top of an expression. It is looked at level by level, because a term written out
/// may be larger than any memory.
#[derive(Clone, PartialEq, Eq, Debug)]
pub enum Value {
    /// A variable without a value.
    Variable {
        /// Its number.
        number: u16,
        /// The use of an input clause to which it belongs, from 1.
        index: u16,
    },
    /// A symbol and its arguments.
    Application {
        /// The symbol.
        symbol: Symbol,
        /// As many expressions as its arity.
        arguments: Vec<Expression>,
    },
}
