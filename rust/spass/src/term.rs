//! Terms, literals and clauses, as SPASS prints them and as steps make them.

use std::collections::{BTreeSet, HashMap};

/// A variable of a clause by its number there, or a symbol with its arguments.
#[derive(Clone, PartialEq, Eq, Debug)]
pub(crate) enum Term {
    Variable(usize),
    Application { symbol: usize, arguments: Vec<Term> },
}

/// A sign and an atom.
#[derive(Clone, PartialEq, Eq, Debug)]
pub(crate) struct Literal {
    pub positive: bool,
    pub atom: Term,
}

/// Literals in order, over variables that are numbered from 0.
#[derive(Clone, PartialEq, Eq, Debug)]
pub(crate) struct Clause {
    pub literals: Vec<Literal>,
    pub variables: usize,
}

/// The numbers that variables get, from 0 in the order in which they are met.
#[derive(Default)]
pub(crate) struct Numbering {
    numbers: HashMap<usize, usize>,
}

impl Numbering {
    /// The number of a variable.
    pub fn number(&mut self, variable: usize) -> usize {
        let next = self.numbers.len();
        *self.numbers.entry(variable).or_insert(next)
    }

    /// How many variables were met.
    pub fn count(&self) -> usize {
        self.numbers.len()
    }
}

impl Term {
    /// Adds the variables of the term to others.
    pub fn variables(&self, found: &mut BTreeSet<usize>) {
        match self {
            Term::Variable(number) => {
                found.insert(*number);
            }
            Term::Application { arguments, .. } => {
                arguments.iter().for_each(|argument| argument.variables(found));
            }
        }
    }

    /// The term with a constant for each variable: symbols from the given one on, of which the proof has none.
    pub fn fixed(&self, first: usize) -> Term {
        match self {
            Term::Variable(number) => Term::Application { symbol: first + number, arguments: Vec::new() },
            Term::Application { symbol, arguments } => {
                let arguments = arguments.iter().map(|argument| argument.fixed(first)).collect();
                Term::Application { symbol: *symbol, arguments }
            }
        }
    }
}

impl Clause {
    /// The literals with a constant for each variable, each literal once.
    pub fn fixed(&self, first: usize) -> Vec<Literal> {
        let mut fixed: Vec<Literal> = Vec::new();
        for Literal { positive, atom } in &self.literals {
            let literal = Literal { positive: *positive, atom: atom.fixed(first) };
            if !fixed.contains(&literal) {
                fixed.push(literal);
            }
        }
        fixed
    }
}
