//! Unification over clauses that are not copied: a term is read at a base, which is added to the numbers of its variables.
//!
//! Terms under bindings can be larger than any memory, and deeper than any stack. So there is room for so many visits of terms, and for so
//! many levels; where either does not do, two terms count as not unifiable.

use std::cell::Cell;

use crate::term::{Numbering, Term};

/// Visits for which bindings have room.
const ROOM: usize = 20_000_000;
/// Levels that are gone down into a term.
const LEVELS: usize = 2_000;

/// A term read at a base.
#[derive(Clone, Copy)]
pub(crate) struct At<'a> {
    pub term: &'a Term,
    pub base: usize,
}

/// Values of variables, which can be taken back.
pub(crate) struct Bindings<'a> {
    values: Vec<Option<At<'a>>>,
    /// The variables that have a value, in the order in which they got it.
    bound: Vec<usize>,
    /// How many terms can still be visited.
    room: Cell<usize>,
}

impl Default for Bindings<'_> {
    fn default() -> Self {
        Bindings { values: Vec::new(), bound: Vec::new(), room: Cell::new(ROOM) }
    }
}

impl<'a> Bindings<'a> {
    /// How many variables have a value: what is bound from here on can be taken back.
    pub fn mark(&self) -> usize {
        self.bound.len()
    }

    /// Takes back the values that variables have got since a mark.
    pub fn undo(&mut self, mark: usize) {
        for variable in self.bound.drain(mark..) {
            self.values[variable] = None;
        }
    }

    /// Can terms still be visited?
    pub fn has_room(&self) -> bool {
        self.room.get() > 0
    }

    /// Makes two terms equal, if it can. If not, some variables may have got values all the same.
    pub fn unify(&mut self, left: At<'a>, right: At<'a>) -> bool {
        self.unify_at(left, right, LEVELS)
    }

    /// Are two terms equal as they are?
    pub fn equal(&self, left: At<'a>, right: At<'a>) -> bool {
        self.equal_at(left, right, LEVELS)
    }

    /// A term written out, its variables numbered anew.
    pub fn written(&self, at: At<'a>, numbering: &mut Numbering) -> Option<Term> {
        self.written_at(at, numbering, LEVELS)
    }

    /// Unifies so many levels.
    fn unify_at(&mut self, left: At<'a>, right: At<'a>, levels: usize) -> bool {
        let Some(levels) = self.visited(levels) else { return false };
        let (left, right) = (self.follow(left), self.follow(right));
        match (left.term, right.term) {
            (Term::Variable(l), Term::Variable(r)) if left.base + l == right.base + r => true,
            (Term::Variable(l), _) => self.bind(left.base + l, right, levels),
            (_, Term::Variable(r)) => self.bind(right.base + r, left, levels),
            (
                Term::Application { symbol: f, arguments: lefts },
                Term::Application { symbol: g, arguments: rights },
            ) => f == g && pairs(left, lefts, right, rights).all(|(l, r)| self.unify_at(l, r, levels)),
        }
    }

    /// Compares so many levels.
    fn equal_at(&self, left: At<'a>, right: At<'a>, levels: usize) -> bool {
        let Some(levels) = self.visited(levels) else { return false };
        let (left, right) = (self.follow(left), self.follow(right));
        match (left.term, right.term) {
            (Term::Variable(l), Term::Variable(r)) => left.base + l == right.base + r,
            (
                Term::Application { symbol: f, arguments: lefts },
                Term::Application { symbol: g, arguments: rights },
            ) => f == g && pairs(left, lefts, right, rights).all(|(l, r)| self.equal_at(l, r, levels)),
            _ => false,
        }
    }

    /// Writes so many levels.
    fn written_at(&self, at: At<'a>, numbering: &mut Numbering, levels: usize) -> Option<Term> {
        let levels = self.visited(levels)?;
        let At { term, base } = self.follow(at);
        match term {
            Term::Variable(number) => Some(Term::Variable(numbering.number(base + number))),
            Term::Application { symbol, arguments } => {
                let written =
                    arguments.iter().map(|term| self.written_at(At { term, base }, numbering, levels));
                Some(Term::Application {
                    symbol: *symbol,
                    arguments: written.collect::<Option<Vec<Term>>>()?,
                })
            }
        }
    }

    /// Goes from value to value to an application or to a variable without a value.
    fn follow(&self, mut at: At<'a>) -> At<'a> {
        while let Term::Variable(number) = at.term {
            let Some(&Some(value)) = self.values.get(at.base + number) else { break };
            at = value;
        }
        at
    }

    /// Binds a variable without a value to a followed term, unless it occurs there.
    fn bind(&mut self, variable: usize, value: At<'a>, levels: usize) -> bool {
        if self.may_occur(variable, value, levels) {
            return false;
        }
        if self.values.len() <= variable {
            self.values.resize(variable + 1, None);
        }
        self.values[variable] = Some(value);
        self.bound.push(variable);
        true
    }

    /// Does a variable occur in a term, or is there no telling?
    fn may_occur(&self, variable: usize, within: At<'a>, levels: usize) -> bool {
        let Some(levels) = self.visited(levels) else { return true };
        let At { term, base } = self.follow(within);
        match term {
            Term::Variable(number) => base + number == variable,
            Term::Application { arguments, .. } => {
                arguments.iter().any(|term| self.may_occur(variable, At { term, base }, levels))
            }
        }
    }

    /// Takes up a visit of a term: the levels that there are below it, if there is room.
    fn visited(&self, levels: usize) -> Option<usize> {
        self.room.set(self.room.get().checked_sub(1)?);
        levels.checked_sub(1)
    }
}

/// The arguments of two applications of one symbol, in pairs.
fn pairs<'a>(
    left: At<'a>,
    lefts: &'a [Term],
    right: At<'a>,
    rights: &'a [Term],
) -> impl Iterator<Item = (At<'a>, At<'a>)> {
    let read = |base: usize| move |term: &'a Term| At { term, base };
    lefts.iter().map(read(left.base)).zip(rights.iter().map(read(right.base)))
}
