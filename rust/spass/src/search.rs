//! The search for a derivation: copies of parent clauses that are joined literal to literal until what is left are literals of the
//! clause looked for.
//!
//! A copy of one parent comes first. Each of its literals is a goal, and is ended in one of four ways: it becomes a literal of the
//! target; it becomes opposite to a goal above it; it is the same as another goal that is still open; or a further copy is
//! joined to it, whose other literals are goals below it. The variables of the target stand as constants. This is model
//! elimination: whatever follows from the parents is found, if not too many copies are needed.

mod moves;

use crate::bindings::{At, Bindings};
use crate::term::{Clause, Literal};

/// A parent clause, joined to a goal above it by one of its literals; the first one to none.
#[derive(Clone, Copy, Debug)]
pub(crate) struct Copy {
    pub parent: usize,
    pub above: Option<usize>,
    /// The goal of its first literal; those of the others follow.
    pub first: usize,
    base: usize,
}

/// How a goal is ended.
#[derive(Clone, Copy, PartialEq, Eq, Debug)]
pub(crate) enum End {
    /// It becomes this literal of the target.
    Kept(usize),
    /// It becomes opposite to this goal, above it.
    Meets(usize),
    /// It is the same as this goal, of a copy above it or of its own.
    Same(usize),
    /// This copy is joined to it.
    Joined(usize),
}

/// Copies joined to each other, and the end of each goal.
#[derive(Debug)]
pub(crate) struct Joined {
    pub copies: Vec<Copy>,
    pub ends: Vec<End>,
}

/// A literal of a copy.
struct Goal<'a> {
    copy: usize,
    positive: bool,
    atom: At<'a>,
    end: Option<End>,
}

/// A search under way.
struct Search<'a> {
    parents: &'a [&'a Clause],
    target: &'a [Literal],
    bindings: Bindings<'a>,
    copies: Vec<Copy>,
    goals: Vec<Goal<'a>>,
}

/// Joins copies of the parents, as few as will do and at most so many after the first, so that nothing is left but literals of
/// the target, which has no variables.
pub(crate) fn join<'a>(parents: &'a [&'a Clause], target: &'a [Literal], most: usize) -> Option<Joined> {
    let (bindings, copies, goals) = (Bindings::default(), Vec::new(), Vec::new());
    let mut search = Search { parents, target, bindings, copies, goals };
    for joins in 0..=most {
        for first in 0..parents.len() {
            search.copy(first, None);
            if search.solve(joins) {
                return search.joined();
            }
            search.copies.clear();
            search.goals.clear();
        }
    }
    None
}

impl<'a> Search<'a> {
    /// Adds a copy of a parent, with its goals.
    fn copy(&mut self, parent: usize, above: Option<usize>) {
        let base = self.copies.last().map_or(0, |last| last.base + self.parents[last.parent].variables);
        let (copy, first) = (self.copies.len(), self.goals.len());
        self.copies.push(Copy { parent, above, first, base });
        for Literal { positive, atom } in &self.parents[parent].literals {
            let atom = At { term: atom, base };
            self.goals.push(Goal { copy, positive: *positive, atom, end: None });
        }
    }

    /// Ends all open goals with at most so many further copies; if it cannot be done, everything is as it was.
    fn solve(&mut self, joins: usize) -> bool {
        if self.goals.iter().all(|goal| goal.end.is_some()) {
            return true;
        }
        let Some((goal, moves)) = self.choice(joins) else { return false };
        for next in moves {
            let (bound, copies, goals) = (self.bindings.mark(), self.copies.len(), self.goals.len());
            let left = joins - usize::from(next.joins());
            if self.make(goal, next) && self.solve(left) {
                return true;
            }
            self.bindings.undo(bound);
            self.copies.truncate(copies);
            self.goals.truncate(goals);
            self.goals[goal].end = None;
        }
        false
    }

    /// What was found.
    fn joined(self) -> Option<Joined> {
        let ends: Option<Vec<End>> = self.goals.iter().map(|goal| goal.end).collect();
        Some(Joined { copies: self.copies, ends: ends? })
    }
}
