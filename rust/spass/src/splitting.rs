//! Splits: SPASS takes a clause apart into two parts without a common variable, refutes the first, and goes on with the other.
//!
//! No assumption stands in a proof file. What follows from the first part is therefore made with something left open, which stays in
//! the clause as further literals: the opposite of the first part if that is one literal without variables, otherwise the other part.
//! The refutation of the first part then becomes a clause of nothing else, from which the other part follows.

use std::collections::BTreeSet;

use crate::bindings::{At, Bindings};
use crate::term::{Clause, Literal, Numbering};

/// A split under way.
#[derive(Debug)]
pub(crate) struct Split {
    /// SPASS's number of the clause that is split.
    pub whole: u32,
    /// What clauses that rest on the first part may have besides their own literals; it has no variables.
    pub open: Vec<Literal>,
    /// The first part, where it is assumed.
    assumed: Option<Literal>,
}

impl Split {
    /// A split whose first part is one literal without variables.
    pub fn assuming(whole: u32, part: &Literal) -> Split {
        let opposite = Literal { positive: !part.positive, atom: part.atom.clone() };
        Split { whole, open: vec![opposite], assumed: Some(part.clone()) }
    }

    /// A split that leaves the other part open, with constants for its variables; none if the first part is not one of the clause.
    pub fn leaving(whole: u32, clause: &Clause, part: &Clause, first: usize) -> Option<Split> {
        let taken = Matching { clause, part }.complete(Vec::new())?;
        let open = clause.literals.iter().enumerate().filter(|(place, _)| !taken.contains(place));
        let fixed = |literal: &Literal| Literal { atom: literal.atom.fixed(first), ..*literal };
        Some(Split { whole, open: open.map(|(_, literal)| fixed(literal)).collect(), assumed: None })
    }

    /// Is what the split assumes one of these literals?
    pub fn assumes_one_of(&self, literals: &[Literal]) -> bool {
        self.assumed.as_ref().is_some_and(|assumed| literals.contains(assumed))
    }
}

/// The literals of a part, each looked for in a clause.
struct Matching<'a> {
    clause: &'a Clause,
    part: &'a Clause,
}

impl Matching<'_> {
    /// The places of all literals of the part, those of the first ones being given.
    fn complete(&self, taken: Vec<usize>) -> Option<Vec<usize>> {
        if !self.agrees(&taken) {
            return None;
        }
        if taken.len() == self.part.literals.len() {
            return self.is_apart(&taken).then_some(taken);
        }
        let free = (0..self.clause.literals.len()).filter(|place| !taken.contains(place));
        free.map(|place| taken.iter().copied().chain([place]).collect()).find_map(|next| self.complete(next))
    }

    /// Are the literals at these places the first ones of the part, up to the names of variables?
    fn agrees(&self, taken: &[usize]) -> bool {
        let found = taken.iter().map(|&place| &self.clause.literals[place]);
        renamed(found) == renamed(self.part.literals.iter().take(taken.len()))
    }

    /// Do the literals at these places have no variable in common with the others?
    fn is_apart(&self, taken: &[usize]) -> bool {
        let [mut own, mut others] = [BTreeSet::new(), BTreeSet::new()];
        for (place, literal) in self.clause.literals.iter().enumerate() {
            literal.atom.variables(if taken.contains(&place) { &mut own } else { &mut others });
        }
        own.is_disjoint(&others)
    }
}

/// Literals with their variables numbered anew.
fn renamed<'a>(literals: impl Iterator<Item = &'a Literal>) -> Option<Vec<Literal>> {
    let (bindings, mut numbering) = (Bindings::default(), Numbering::default());
    let renamed = literals.map(|literal| {
        let atom = bindings.written(At { term: &literal.atom, base: 0 }, &mut numbering);
        Some(Literal { positive: literal.positive, atom: atom? })
    });
    renamed.collect()
}
