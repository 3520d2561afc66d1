//! Steps run again: the atoms that a step unifies, how the unification goes, and its work.

use yestrwyn_types::Verdict;

use crate::model::{origin, Clause, Expression, Literal, Model, Origin};
use crate::outlines::{clash, OutlineClash};
use crate::unification::{unify, Unified};
use crate::values::Values;

/// The literals that a step names, as its clauses have them, with the indices that they have in the step.
#[derive(Clone, PartialEq, Eq, Debug)]
pub struct Named {
    /// The left literal, or the one that a factoring step keeps.
    pub one: Literal,
    /// The right literals, or the one that it deletes.
    pub others: Vec<Literal>,
}

/// A step that was run again.
pub struct Rerun {
    /// What the outlines of its atoms came to.
    pub outcome: Outcome,
    /// The values of its parents, and those that it has put in.
    pub values: Values,
}

/// What came of a step.
pub enum Outcome {
    /// The outlines clash, of the left atom and a right one, which is counted from 0. Nothing was unified.
    Outline(usize, OutlineClash),
    /// The atoms were unified, or were found to have no unifier.
    Unified(Unified),
}

/// The work of a step.
#[derive(Clone, Copy, PartialEq, Eq, Debug)]
pub struct StepWork {
    /// The step's record.
    pub record: u16,
    /// The work that was begun; none where the outlines clash.
    pub work: u32,
}

/// The work of every step that stands, and of the refused one if it is a step that came as far as its outlines: what a step may do is
/// [`WORK`](yestrwyn_types::limits::WORK).
pub fn step_works(model: &Model<'_>) -> Vec<StepWork> {
    let mut values = Values::default();
    let mut works = Vec::new();
    for clause in model.clauses().iter().filter(|clause| !clause.is_input()) {
        let held = clause.bindings.start;
        works.extend(work(model, &mut values, clause.record, &clause.origin, held));
    }
    if let Some((record, origin)) = refused_step(model) {
        works.extend(work(model, &mut values, record, &origin, model.bindings().len()));
    }
    works
}

/// The refused step with its record, if all tests that come before its outlines let it through.
fn refused_step(model: &Model<'_>) -> Option<(u16, Origin)> {
    let Verdict::Refused { reason, record } = model.answer().verdict else { return None };
    let unifying = (10..=13).contains(&reason.number());
    let origin = origin(&model.record(record)?.record).filter(|_| unifying)?;
    Some((record, origin))
}

/// The work of a step.
fn work(
    model: &Model<'_>,
    values: &mut Values,
    record: u16,
    origin: &Origin,
    held: usize,
) -> Option<StepWork> {
    let named = named(model, origin)?;
    let work = match outcome(model, values, origin, &named, held) {
        Outcome::Outline(..) => 0,
        Outcome::Unified(unified) => unified.work,
    };
    Some(StepWork { record, work })
}

/// Runs a step again over the bindings that earlier steps have added, so many of them.
pub fn rerun(model: &Model<'_>, origin: &Origin, held: usize) -> Option<Rerun> {
    let mut values = Values::default();
    let outcome = outcome(model, &mut values, origin, &named(model, origin)?, held);
    Some(Rerun { outcome, values })
}

/// Compares outlines, and unifies if they do not clash.
fn outcome(model: &Model<'_>, values: &mut Values, origin: &Origin, named: &Named, held: usize) -> Outcome {
    load(model, values, origin);
    let outline = |other: &Literal| clash(model, named.one.atom.row, other.atom.row);
    let clashes = named.others.iter().enumerate();
    if let Some((place, clash)) = clashes.filter_map(|(place, other)| Some((place, outline(other)?))).next() {
        return Outcome::Outline(place, clash);
    }
    let others: Vec<Expression> = named.others.iter().map(|other| other.atom).collect();
    Outcome::Unified(unify(model, values, held, named.one.atom, &others))
}

/// Puts in the values of the parents of a step.
pub fn load(model: &Model<'_>, values: &mut Values, origin: &Origin) {
    let index = |clause: u16| model.clause(clause).map_or(0, |clause| clause.max_index);
    match *origin {
        Origin::Input => values.clear(1),
        Origin::Factor { parent, .. } => {
            values.clear(index(parent));
            values.load(model, parent, 0);
        }
        Origin::Resolve { left, right, .. } => {
            values.clear(index(left).saturating_add(index(right)));
            values.load(model, left, 0);
            values.load(model, right, index(left));
        }
    }
}

/// The literals that a step names, if they exist.
pub fn named(model: &Model<'_>, origin: &Origin) -> Option<Named> {
    match *origin {
        Origin::Input => None,
        Origin::Factor { parent, kept, deleted } => {
            let others = vec![model.literal(parent, deleted)?];
            Some(Named { one: model.literal(parent, kept)?, others })
        }
        Origin::Resolve { left, left_literal, right, ref right_literals } => {
            let by = model.clause(left)?.max_index;
            let raised = |&number: &u16| {
                let literal = model.literal(right, number)?;
                Some(Literal { atom: literal.atom.raised(by), ..literal })
            };
            let others = right_literals.iter().map(raised).collect::<Option<_>>()?;
            Some(Named { one: model.literal(left, left_literal)?, others })
        }
    }
}

/// How many literals and which maximum index the clause of a step would have, if the literals that it names exist.
pub fn size(model: &Model<'_>, origin: &Origin) -> Option<(usize, usize)> {
    let counts = |clause: &Clause| (clause.literals.len(), usize::from(clause.max_index));
    match *origin {
        Origin::Input => None,
        Origin::Factor { parent, .. } => {
            let (literals, index) = counts(model.clause(parent)?);
            Some((literals.saturating_sub(1), index))
        }
        Origin::Resolve { left, right, ref right_literals, .. } => {
            let [(l, i), (r, j)] = [counts(model.clause(left)?), counts(model.clause(right)?)];
            Some(((l + r).saturating_sub(1 + right_literals.len()), i + j))
        }
    }
}
