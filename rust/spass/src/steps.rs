//! The clauses of the file to be: input clauses, and what resolution and factoring steps make of them.

use std::collections::HashMap;

use crate::bindings::{At, Bindings};
use crate::term::{Clause, Literal, Numbering};

/// Where a clause comes from. Clauses and literals are numbered from 0.
#[derive(Clone, PartialEq, Eq, Hash, Debug)]
pub(crate) enum Origin {
    /// The input clause of a line of the proof.
    Input { line: usize },
    /// A literal of the left clause, resolved with one or more of the right.
    Resolve { left: usize, literal: usize, right: usize, rights: Vec<usize> },
    /// A clause without one of two literals that are made equal.
    Factor { clause: usize, kept: usize, deleted: usize },
}

/// A clause with its origin, and the line of the proof for which it was made.
#[derive(Debug)]
pub(crate) struct Made {
    pub clause: Clause,
    pub origin: Origin,
    pub line: usize,
    /// How many uses of input clauses its derivation has: the maximum index of the clause.
    pub uses: usize,
}

/// All clauses made so far. No step is made twice.
#[derive(Default, Debug)]
pub(crate) struct Steps {
    made: Vec<Made>,
    known: HashMap<Origin, usize>,
}

impl Steps {
    /// The clauses in the order in which they were made.
    pub fn made(&self) -> &[Made] {
        &self.made
    }

    /// A clause by its number.
    pub fn clause(&self, number: usize) -> &Clause {
        &self.made[number].clause
    }

    /// The input clause of a line.
    pub fn input(&mut self, line: usize, clause: Clause) -> usize {
        self.add(line, Origin::Input { line }, |_| Some(clause)).unwrap_or_default()
    }

    /// Resolves a literal of a clause with one or more of another, of which none stays; none if they do not unify or the
    /// clause would be too large to be written out.
    pub fn resolve(
        &mut self,
        line: usize,
        (left, literal): (usize, usize),
        (right, rights): (usize, &[usize]),
    ) -> Option<usize> {
        let origin = Origin::Resolve { left, literal, right, rights: rights.to_vec() };
        self.add(line, origin, |steps| {
            resolvent((steps.clause(left), literal), (steps.clause(right), rights))
        })
    }

    /// Deletes a literal of a clause that is made equal to another; none as for a resolution.
    pub fn factor(&mut self, line: usize, clause: usize, kept: usize, deleted: usize) -> Option<usize> {
        let origin = Origin::Factor { clause, kept, deleted };
        self.add(line, origin, |steps| factor(steps.clause(clause), kept, deleted))
    }

    /// For each clause whether the derivation of one uses it.
    pub fn used_by(&self, clause: usize) -> Vec<bool> {
        let mut used = vec![false; self.made.len()];
        used[clause] = true;
        for (number, made) in self.made.iter().enumerate().rev() {
            if used[number] {
                made.origin.parents().into_iter().for_each(|parent| used[parent] = true);
            }
        }
        used
    }

    /// The clause of an origin, if it was made before, or else made now.
    fn add(
        &mut self,
        line: usize,
        origin: Origin,
        make: impl FnOnce(&Steps) -> Option<Clause>,
    ) -> Option<usize> {
        if let Some(&number) = self.known.get(&origin) {
            return Some(number);
        }
        let clause = make(self)?;
        self.known.insert(origin.clone(), self.made.len());
        let uses = self.uses(&origin);
        self.made.push(Made { clause, origin, line, uses });
        Some(self.made.len() - 1)
    }

    /// One use of an input clause, otherwise those of the parents.
    fn uses(&self, origin: &Origin) -> usize {
        let uses = origin.parents().into_iter().map(|parent| self.made[parent].uses);
        uses.reduce(usize::saturating_add).unwrap_or(1)
    }
}

impl Origin {
    /// The clauses that a step is about.
    fn parents(&self) -> Vec<usize> {
        match self {
            Origin::Input { .. } => Vec::new(),
            Origin::Resolve { left, right, .. } => vec![*left, *right],
            Origin::Factor { clause, .. } => vec![*clause],
        }
    }
}

/// The rest of the left clause, then the rest of the right one.
fn resolvent((left, literal): (&Clause, usize), (right, rights): (&Clause, &[usize])) -> Option<Clause> {
    let mut bindings = Bindings::default();
    let named = At { term: &left.literals.get(literal)?.atom, base: 0 };
    for &right_literal in rights {
        let other = At { term: &right.literals.get(right_literal)?.atom, base: left.variables };
        bindings.unify(named, other).then_some(())?;
    }
    let lefts = without(left, std::slice::from_ref(&literal), 0);
    written(&bindings, lefts.chain(without(right, rights, left.variables)))
}

/// A clause without a literal that is made equal to another.
fn factor(clause: &Clause, kept: usize, deleted: usize) -> Option<Clause> {
    let mut bindings = Bindings::default();
    let [kept, other] = [kept, deleted].map(|literal| clause.literals.get(literal));
    let (kept, other) = (At { term: &kept?.atom, base: 0 }, At { term: &other?.atom, base: 0 });
    bindings.unify(kept, other).then_some(())?;
    written(&bindings, without(clause, &[deleted], 0))
}

/// The literals of a clause but for some, each with its sign and read at a base.
fn without<'a>(
    clause: &'a Clause,
    named: &'a [usize],
    base: usize,
) -> impl Iterator<Item = (bool, At<'a>)> + use<'a> {
    let rest = clause.literals.iter().enumerate().filter(|(number, _)| !named.contains(number));
    rest.map(move |(_, literal)| (literal.positive, At { term: &literal.atom, base }))
}

/// A clause of literals written out, if that is not too much.
fn written<'a>(bindings: &Bindings<'a>, literals: impl Iterator<Item = (bool, At<'a>)>) -> Option<Clause> {
    let mut numbering = Numbering::default();
    let written = literals
        .map(|(positive, at)| Some(Literal { positive, atom: bindings.written(at, &mut numbering)? }))
        .collect::<Option<Vec<Literal>>>();
    Some(Clause { literals: written?, variables: numbering.count() })
}
