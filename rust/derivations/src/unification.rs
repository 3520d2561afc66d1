//! Unification of an atom with one or more others, pair by pair, with its work counted as the format says it.

use yestrwyn_types::limits::{ARITY, BINDINGS, WORK};

use crate::model::{Expression, Model, Node};
use crate::places::{Place, Places, TOP};
use crate::values::Values;

/// Why atoms have no unifier, or why none was found within the limits.
#[derive(Clone, PartialEq, Eq, Debug)]
pub enum Failure {
    /// Two applications of different symbols meet.
    Clash {
        /// The arguments that lead from the top of both atoms to the place where they meet.
        path: Vec<u8>,
        /// What the left atom has there.
        left: Expression,
        /// What the right atom has there.
        right: Expression,
    },
    /// A variable would become something in which it occurs.
    Occurs {
        /// The arguments that lead from the top of both atoms to the place where the variable meets it.
        path: Vec<u8>,
        /// The variable.
        variable: Expression,
        /// What it would become.
        value: Expression,
        /// The arguments that lead from the top of that to the variable.
        within: Vec<u8>,
    },
    /// Work 16,385 would begin.
    Work,
    /// A binding is to be added and 8,192 are held.
    Bindings,
}

/// How a unification went.
pub struct Unified {
    /// The work that was begun.
    pub work: u32,
    /// Bindings that were added.
    pub added: usize,
    /// Which of the right atoms was paired last, from 0.
    pub other: usize,
    /// Why it failed, if it did.
    pub failure: Option<Failure>,
}

/// A pair that is still to be taken up.
struct Pair {
    left: Expression,
    right: Expression,
    place: Place,
    other: usize,
}

/// A unification under way.
struct Walk<'a> {
    model: &'a Model<'a>,
    values: &'a mut Values,
    /// Bindings that earlier steps have added.
    held: usize,
    pairs: Vec<Pair>,
    places: Places,
    done: Unified,
}

/// Unifies an atom with each of the others in turn, under one allowance of work, over the values of the parents. New values are put in.
pub fn unify(
    model: &Model<'_>,
    values: &mut Values,
    held: usize,
    one: Expression,
    others: &[Expression],
) -> Unified {
    let pair = |(other, &right)| Pair { left: one, right, place: TOP, other };
    let pairs = others.iter().enumerate().rev().map(pair).collect();
    let done = Unified { work: 0, added: 0, other: 0, failure: None };
    let mut walk = Walk { model, values, held, pairs, places: Places::new(), done };
    walk.done.failure = walk.run().err();
    walk.done
}

impl Walk<'_> {
    /// Takes up one pair after another.
    fn run(&mut self) -> Result<(), Failure> {
        while let Some(Pair { left, right, place, other }) = self.pairs.pop() {
            self.done.other = other;
            self.count()?;
            let left = self.values.follow(self.model, left);
            let right = self.values.follow(self.model, right);
            if left == right {
                continue;
            }
            match (self.model.node(left.row), self.model.node(right.row)) {
                (Node::Variable(_), _) => self.bind(place, left, right)?,
                (_, Node::Variable(_)) => self.bind(place, right, left)?,
                (
                    Node::Application { symbol: f, arguments: ls },
                    Node::Application { symbol: g, arguments: rs },
                ) => {
                    if f != g {
                        return Err(Failure::Clash { path: self.places.path(place), left, right });
                    }
                    for ((&l, &r), argument) in ls.iter().zip(rs).zip(1..=ARITY).rev() {
                        let [left, right] = [(l, left), (r, right)].map(|(row, at)| Expression { row, ..at });
                        let place = self.places.argument(place, argument);
                        self.pairs.push(Pair { left, right, place, other });
                    }
                }
            }
        }
        Ok(())
    }

    /// Counts a piece of work that is about to begin.
    fn count(&mut self) -> Result<(), Failure> {
        if self.done.work == WORK {
            return Err(Failure::Work);
        }
        self.done.work += 1;
        Ok(())
    }

    /// Gives a variable without a value what it meets.
    fn bind(&mut self, place: Place, variable: Expression, value: Expression) -> Result<(), Failure> {
        if let Some(within) = self.occurs(variable, value)? {
            return Err(Failure::Occurs { path: self.places.path(place), variable, value, within });
        }
        if self.held + self.done.added == BINDINGS {
            return Err(Failure::Bindings);
        }
        self.done.added += 1;
        self.values.bind(self.model, variable, value);
        Ok(())
    }

    /// The occurrence test: the way to the variable in a value, if it occurs there.
    fn occurs(&mut self, variable: Expression, value: Expression) -> Result<Option<Vec<u8>>, Failure> {
        let mut places = Places::new();
        let mut open = vec![(value, TOP)];
        while let Some((at, place)) = open.pop() {
            self.count()?;
            let at = self.values.follow(self.model, at);
            if at == variable {
                return Ok(Some(places.path(place)));
            }
            for (&row, argument) in self.model.node(at.row).arguments().iter().zip(1..=ARITY).rev() {
                open.push((Expression { row, ..at }, places.argument(place, argument)));
            }
        }
        Ok(None)
    }
}
