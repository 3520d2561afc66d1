//! Clauses, and the literals of a clause that a step makes.

use std::ops::{Range, RangeInclusive};

use super::rows::Expression;

/// Where a clause comes from. Clauses are named by number, always a smaller one, and literals by theirs, from 1.
#[derive(Clone, PartialEq, Eq, Debug)]
pub enum Origin {
    /// An input clause: a rule or a fact.
    Input,
    /// A resolution step on a literal of the left clause and one or more of the right.
    Resolve {
        /// The left clause.
        left: u16,
        /// Its literal.
        left_literal: u16,
        /// The right clause.
        right: u16,
        /// Its literals, rising.
        right_literals: Vec<u16>,
    },
    /// A factoring step.
    Factor {
        /// The clause.
        parent: u16,
        /// The literal that is kept.
        kept: u16,
        /// The literal that is deleted.
        deleted: u16,
    },
}

impl Origin {
    /// The clauses that a step is made of: none, one, or the left and the right one.
    pub fn parents(&self) -> Vec<u16> {
        match *self {
            Origin::Input => Vec::new(),
            Origin::Resolve { left, right, .. } => vec![left, right],
            Origin::Factor { parent, .. } => vec![parent],
        }
    }
}

/// A literal of a clause. What its variables have become is found in the values of the clause.
#[derive(Clone, Copy, PartialEq, Eq, Debug)]
pub struct Literal {
    /// Does it say that something is so?
    pub positive: bool,
    /// Its atom.
    pub atom: Expression,
}

/// A clause that stands.
#[derive(Clone, PartialEq, Eq, Debug)]
pub struct Clause {
    /// Its record.
    pub record: u16,
    /// Where it comes from.
    pub origin: Origin,
    /// Its literals, in order.
    pub literals: Vec<Literal>,
    /// Its maximum index: how many uses of input clauses it is made of.
    pub max_index: u16,
    /// Which of the file's bindings its own step added.
    pub bindings: Range<usize>,
    /// The first and the last day of an input clause that is not always in force.
    pub days: Option<RangeInclusive<u16>>,
}

impl Clause {
    /// Is it an input clause?
    pub fn is_input(&self) -> bool {
        self.origin == Origin::Input
    }

    /// Is it in force on a day, by its own days?
    pub fn in_force(&self, day: u16) -> bool {
        self.days.as_ref().is_none_or(|days| days.contains(&day))
    }
}

/// The literals that a step leaves, or none where it names a clause or a literal that does not exist. An input clause has its own.
pub fn remaining(clauses: &[Clause], origin: &Origin) -> Option<Vec<Literal>> {
    match *origin {
        Origin::Input => Some(Vec::new()),
        Origin::Factor { parent, kept, deleted } => {
            let parent = clauses.get(usize::from(parent))?;
            without(parent, &[kept])?;
            without(parent, &[deleted])
        }
        Origin::Resolve { left, left_literal, right, ref right_literals } => {
            let left = clauses.get(usize::from(left))?;
            let mut rest = without(left, &[left_literal])?;
            let others = without(clauses.get(usize::from(right))?, right_literals)?;
            rest.extend(others.into_iter().map(|literal| raised(literal, left.max_index)));
            Some(rest)
        }
    }
}

/// The literals of a clause without some, which it must have.
fn without(clause: &Clause, numbers: &[u16]) -> Option<Vec<Literal>> {
    let count = clause.literals.len();
    let there = |&number: &u16| (1..=count).contains(&usize::from(number));
    let kept = clause.literals.iter().zip(1..).filter(|(_, number)| !numbers.contains(number));
    numbers.iter().all(there).then(|| kept.map(|(&literal, _)| literal).collect())
}

/// A literal with its index raised.
fn raised(literal: Literal, by: u16) -> Literal {
    Literal { atom: literal.atom.raised(by), ..literal }
}
