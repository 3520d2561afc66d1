//! Clauses as derivations: an input clause, or a step on earlier clauses whose structure it shares.

use yestrwyn_types::limits::RIGHT_LITERALS;

use crate::environment::Environment;
use crate::expression::{Binding, Expression};

/// Where a clause comes from. Clauses are named by number, always a smaller one.
#[derive(Clone, Copy, PartialEq, Eq, Debug)]
pub enum Origin {
    /// The literals of an input clause: 2 × row, plus 1 if positive, where the row is the earliest of its equals.
    Input([u16; 7]),
    /// The resolvent on a literal of the left clause and one or more of the right.
    Resolve { left: u16, left_literal: u16, right: u16, right_literals: Holes },
    /// The factor on two literals, of which the second is deleted.
    Factor { parent: u16, kept: u16, deleted: u16 },
}

/// The numbers of literals that a step leaves out of a clause, strictly rising. Places that are not used hold a
/// number past every literal, so that they leave out none.
#[derive(Clone, Copy, PartialEq, Eq, Debug)]
pub struct Holes([u16; RIGHT_LITERALS as usize]);

impl Holes {
    /// The holes at these numbers; those past the fourth are dropped.
    pub fn new(numbers: &[u16]) -> Holes {
        let mut holes = [u16::MAX; RIGHT_LITERALS as usize];
        for (hole, &number) in holes.iter_mut().zip(numbers) {
            *hole = number;
        }
        Holes(holes)
    }

    /// The number in the whole clause of a literal that has `number` once the holes are left out.
    fn past(&self, number: u16) -> u16 {
        let [first, ref others @ ..] = self.0;
        used(others).fold(past_hole(number, first), past_hole)
    }

    /// The same for a list of numbers, with `before` taken off each: one hole after another, so that each is a pass
    /// without branches.
    fn past_all(&self, numbers: &mut [u16], before: u16) {
        let [first, ref others @ ..] = self.0;
        numbers.iter_mut().for_each(|number| *number = past_hole(*number - before, first));
        for hole in used(others) {
            numbers.iter_mut().for_each(|number| *number = past_hole(*number, hole));
        }
    }
}

/// A clause that stands. Its literals are found through its parents and are not stored.
#[derive(Clone, Copy, PartialEq, Eq, Debug)]
pub struct Clause {
    pub record: u16,
    pub origin: Origin,
    /// Number of literals.
    pub literals: u16,
    /// Maximum index: the number of uses of input clauses in the derivation.
    pub max_index: u16,
    /// Number of bindings held before this clause.
    pub first_binding: u16,
    /// Number of bindings that this clause's own unification added.
    pub bindings: u16,
}

/// A literal of a clause: a sign and an expression, whose value is found in the clause's environment.
#[derive(Clone, Copy, PartialEq, Eq, Debug)]
pub struct Literal {
    pub positive: bool,
    pub atom: Expression,
}

/// Literal `number` (from 1) of a clause, or none if the clause or the literal does not exist.
pub fn literal(clauses: &[Clause], clause: u16, number: u16) -> Option<Literal> {
    let mut at = clauses.get(usize::from(clause))?;
    let mut number = number;
    let mut offset = 0u16;
    if number == 0 || number > at.literals {
        return None;
    }
    loop {
        match at.origin {
            Origin::Input(fields) => {
                let code = *fields.get(usize::from(number).checked_sub(1)?)?;
                return Some(input_literal(code, offset.checked_add(1)?));
            }
            Origin::Factor { parent, deleted, .. } => {
                number = past_hole(number, deleted);
                at = clauses.get(usize::from(parent))?;
            }
            Origin::Resolve { left, left_literal, right, right_literals } => {
                let left = clauses.get(usize::from(left))?;
                if number < left.literals {
                    number = past_hole(number, left_literal);
                    at = left;
                } else {
                    number = right_literals.past(number - left.literals.saturating_sub(1));
                    offset = offset.checked_add(left.max_index)?;
                    at = clauses.get(usize::from(right))?;
                }
            }
        }
    }
}

/// All literals of a clause in order, by one walk through its derivation.
/// Each part of the list still to be found is one contiguous run, since the order is kept.
pub fn all_literals(clauses: &[Clause], clause: u16) -> Vec<Literal> {
    let count = clauses.get(usize::from(clause)).map_or(0, |clause| clause.literals);
    let mut numbers: Vec<u16> = (1..=count).collect();
    let mut found = vec![input_literal(0, 0); numbers.len()];
    let mut stack = vec![Run { clause, offset: 0, start: 0, end: numbers.len() }];
    while let Some(run) = stack.pop() {
        let Some(at) = clauses.get(usize::from(run.clause)) else { continue };
        if run.start == run.end {
            continue;
        }
        let part = &mut numbers[run.start..run.end];
        match at.origin {
            Origin::Input(fields) => {
                for (place, &number) in found[run.start..run.end].iter_mut().zip(part.iter()) {
                    let code = fields.get(usize::from(number.saturating_sub(1))).copied().unwrap_or(0);
                    *place = input_literal(code, run.offset.saturating_add(1));
                }
            }
            Origin::Factor { parent, deleted, .. } => {
                part.iter_mut().for_each(|number| *number = past_hole(*number, deleted));
                stack.push(Run { clause: parent, ..run });
            }
            Origin::Resolve { left, left_literal, right, right_literals } => {
                let Some(first) = clauses.get(usize::from(left)) else { continue };
                let kept = first.literals.saturating_sub(1);
                let split = part.partition_point(|&number| number <= kept);
                let (ours, theirs) = part.split_at_mut(split);
                ours.iter_mut().for_each(|number| *number = past_hole(*number, left_literal));
                right_literals.past_all(theirs, kept);
                let middle = run.start + split;
                let raised = run.offset.saturating_add(first.max_index);
                stack.push(Run { clause: left, end: middle, ..run });
                stack.push(Run { clause: right, offset: raised, start: middle, ..run });
            }
        }
    }
    found
}

/// Literals `start..end` of a list, looked for in one clause with indices raised by `offset`.
#[derive(Clone, Copy)]
struct Run {
    clause: u16,
    offset: u16,
    start: usize,
    end: usize,
}

/// A literal as an input clause's field codes it, at an index.
fn input_literal(code: u16, index: u16) -> Literal {
    Literal { positive: code % 2 == 1, atom: Expression { row: code / 2, index } }
}

/// The holes of a list that are used.
fn used(holes: &[u16]) -> impl Iterator<Item = u16> + '_ {
    holes.iter().copied().take_while(|&hole| hole != u16::MAX)
}

/// The number in a parent of a literal that has `number` once literal `hole` is left out.
fn past_hole(number: u16, hole: u16) -> u16 {
    number.saturating_add(u16::from(number >= hole))
}

/// A walk through a derivation that puts all bindings into an environment. It keeps its stack.
#[derive(Default)]
pub struct Loader {
    stack: Vec<(u16, u16)>,
}

impl Loader {
    /// Puts every binding of the derivation of `clause` into the environment, indices raised by
    /// `offset`, and by the left maximum index in right parents.
    pub fn load(
        &mut self,
        clauses: &[Clause],
        bindings: &[Binding],
        environment: &mut Environment,
        clause: u16,
        offset: u16,
    ) {
        self.stack.clear();
        self.stack.push((clause, offset));
        while let Some((number, offset)) = self.stack.pop() {
            let Some(at) = clauses.get(usize::from(number)) else { continue };
            for binding in own_bindings(bindings, at) {
                environment.bind(binding, offset);
            }
            match at.origin {
                Origin::Input(_) => {}
                Origin::Factor { parent, .. } => self.stack.push((parent, offset)),
                Origin::Resolve { left, right, .. } => {
                    let raise = clauses.get(usize::from(left)).map_or(0, |left| left.max_index);
                    self.stack.push((right, offset.saturating_add(raise)));
                    self.stack.push((left, offset));
                }
            }
        }
    }
}

/// The bindings that a clause's own unification added.
fn own_bindings<'a>(bindings: &'a [Binding], clause: &Clause) -> &'a [Binding] {
    let start = usize::from(clause.first_binding);
    bindings.get(start..start + usize::from(clause.bindings)).unwrap_or(&[])
}
