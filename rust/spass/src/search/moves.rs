//! Which ends an open goal can have.

use crate::bindings::At;
use crate::search::{Copy, End, Search};
use crate::term::Literal;

/// A way to end a goal.
#[derive(Clone, Copy, PartialEq, Eq, Debug)]
pub(crate) enum Move {
    /// An end that takes no further copy.
    End(End),
    /// A copy of a parent, joined by one of its literals.
    Join { parent: usize, literal: usize },
}

impl Move {
    /// Does it take a further copy?
    pub fn joins(self) -> bool {
        matches!(self, Move::Join { .. })
    }
}

impl<'a> Search<'a> {
    /// An open goal and the ways to end it: one that costs nothing if there is one, otherwise the goal with the fewest. None if some
    /// goal has no way, or more goals need a copy of their own than there may be.
    pub(super) fn choice(&mut self, joins: usize) -> Option<(usize, Vec<Move>)> {
        let open: Vec<usize> = (0..self.goals.len()).filter(|&goal| self.goals[goal].end.is_none()).collect();
        let free = open.iter().find_map(|&goal| Some((goal, self.free_end(goal)?)));
        if let Some((goal, end)) = free {
            return Some((goal, vec![Move::End(end)]));
        }
        let mut best: Option<(usize, Vec<Move>)> = None;
        let mut needy = 0;
        for goal in open {
            let mut moves = self.ends(goal);
            needy += usize::from(moves.is_empty());
            if joins > 0 {
                moves.extend(self.joins(goal));
            }
            if moves.is_empty() || needy > joins || !self.bindings.has_room() {
                return None;
            }
            if best.as_ref().is_none_or(|(_, fewest)| moves.len() < fewest.len()) {
                best = Some((goal, moves));
            }
        }
        best
    }

    /// Ends a goal, if the terms become equal.
    pub(super) fn make(&mut self, goal: usize, next: Move) -> bool {
        let end = match next {
            Move::End(end) => end,
            Move::Join { parent, literal } => {
                let copy = self.copies.len();
                self.copy(parent, Some(goal));
                let joining = self.copies[copy].first + literal;
                self.goals[joining].end = Some(End::Meets(goal));
                self.goals[goal].end = Some(End::Joined(copy));
                return self.bindings.unify(self.goals[goal].atom, self.goals[joining].atom);
            }
        };
        self.goals[goal].end = Some(end);
        self.becomes(goal, end)
    }

    /// An end that binds no variable: whatever else comes, nothing is lost by it.
    fn free_end(&self, goal: usize) -> Option<End> {
        let atom = self.goals[goal].atom;
        let mut ends = self.open_above(goal).chain(self.signed_ends(goal));
        ends.find(|&end| self.other_atom(end).is_some_and(|other| self.bindings.equal(atom, other)))
    }

    /// The ends that a goal can have without a further copy.
    fn ends(&mut self, goal: usize) -> Vec<Move> {
        let ends: Vec<End> = self.signed_ends(goal).collect();
        let possible = ends.into_iter().filter(|&end| self.tried(|search| search.becomes(goal, end)));
        possible.map(Move::End).collect()
    }

    /// The parents' literals by which a copy could be joined to a goal.
    fn joins(&mut self, goal: usize) -> Vec<Move> {
        let (positive, atom) = (self.goals[goal].positive, self.goals[goal].atom);
        let parents = self.parents;
        let base = self.copies.last().map_or(0, |last| last.base + parents[last.parent].variables);
        let mut moves = Vec::new();
        for (parent, clause) in parents.iter().enumerate() {
            for (literal, other) in clause.literals.iter().enumerate() {
                let at = At { term: &other.atom, base };
                if other.positive != positive && self.tried(|search| search.bindings.unify(atom, at)) {
                    moves.push(Move::Join { parent, literal });
                }
            }
        }
        moves
    }

    /// Does something go through? Whatever it binds is taken back.
    fn tried(&mut self, step: impl FnOnce(&mut Self) -> bool) -> bool {
        let mark = self.bindings.mark();
        let done = step(self);
        self.bindings.undo(mark);
        done
    }

    /// Makes a goal equal to what an end makes of it, if it can.
    fn becomes(&mut self, goal: usize, end: End) -> bool {
        let (atom, other) = (self.goals[goal].atom, self.other_atom(end));
        other.is_some_and(|other| self.bindings.unify(atom, other))
    }

    /// The atom that a goal becomes equal to by an end; none where a copy is joined to it.
    fn other_atom(&self, end: End) -> Option<At<'a>> {
        match end {
            End::Kept(literal) => Some(At { term: &self.target[literal].atom, base: 0 }),
            End::Meets(goal) | End::Same(goal) => Some(self.goals[goal].atom),
            End::Joined(_) => None,
        }
    }

    /// The literals of the target and the goals above that have the right sign.
    fn signed_ends(&self, goal: usize) -> impl Iterator<Item = End> + use<'_, 'a> {
        let positive = self.goals[goal].positive;
        let fits = move |&(_, literal): &(usize, &Literal)| literal.positive == positive;
        let kept = self.target.iter().enumerate().filter(fits).map(|(number, _)| End::Kept(number));
        let above = self.above(goal).filter(move |&above| self.goals[above].positive != positive);
        kept.chain(above.map(End::Meets))
    }

    /// Other open goals of the goal's own copy and of the copies above it, of the same sign.
    fn open_above(&self, goal: usize) -> impl Iterator<Item = End> + use<'_, 'a> {
        let copies = std::iter::once(goal).chain(self.above(goal)).map(|goal| self.goals[goal].copy);
        let goals = copies.flat_map(|copy| {
            let Copy { parent, first, .. } = self.copies[copy];
            first..first + self.parents[parent].literals.len()
        });
        let fits = move |&other: &usize| {
            other != goal
                && self.goals[other].end.is_none()
                && self.goals[other].positive == self.goals[goal].positive
        };
        goals.filter(fits).map(End::Same)
    }

    /// The goals above a goal: the one to which its copy is joined, the one to which that one's is, and so on.
    fn above(&self, goal: usize) -> impl Iterator<Item = usize> + use<'_, 'a> {
        let next = |&goal: &usize| self.copies[self.goals[goal].copy].above;
        std::iter::successors(next(&goal), next)
    }
}
