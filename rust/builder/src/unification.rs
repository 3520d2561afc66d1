//! Unification of an expression with one or more others, its work counted, by the rules of the format.

use yestrwyn_types::limits::{BINDINGS, WORK};
use yestrwyn_types::Reason;

use crate::derivation::{At, Variable};
use crate::environment::{End, Environment};

/// A unification under way.
pub(crate) struct Unification<'a, 'b> {
    environment: &'a mut Environment<'b>,
    /// Bindings that the file holds without this step's.
    held: usize,
    work: u32,
    bound: Vec<(Variable, At)>,
}

/// The bindings that make all expressions equal to the left one, if the step stands; `held` bindings are in the file.
pub(crate) fn unify(
    environment: &mut Environment<'_>,
    held: usize,
    left: At,
    rights: &[At],
) -> Result<Vec<(Variable, At)>, Reason> {
    let mut unification = Unification { environment, held, work: 0, bound: Vec::new() };
    for &right in rights {
        unification.pairs(left, right)?;
    }
    Ok(unification.bound)
}

impl Unification<'_, '_> {
    /// Takes up one pair after another, the first arguments first.
    fn pairs(&mut self, left: At, right: At) -> Result<(), Reason> {
        let mut pairs = vec![(left, right)];
        while let Some((left, right)) = pairs.pop() {
            self.count()?;
            let (left, right) = (self.environment.follow(left), self.environment.follow(right));
            match (left, right) {
                _ if left.at() == right.at() => {}
                (End::Unbound(variable), _) => self.bind(variable, right.at())?,
                (_, End::Unbound(variable)) => self.bind(variable, left.at())?,
                (End::Application(left), End::Application(right)) => {
                    let [f, g] = [left, right].map(|at| self.environment.record(at.row).fields[0]);
                    if f != g {
                        return Err(Reason::Clash);
                    }
                    let [left, right] = [left, right].map(|at| self.environment.arguments(at));
                    let both: Vec<(At, At)> = left.zip(right).collect();
                    pairs.extend(both.into_iter().rev());
                }
            }
        }
        Ok(())
    }

    /// Counts one piece of work that is about to begin.
    fn count(&mut self) -> Result<(), Reason> {
        if self.work >= WORK {
            return Err(Reason::Work);
        }
        self.work += 1;
        Ok(())
    }

    /// Binds an unbound variable to a followed expression, unless it occurs there.
    fn bind(&mut self, at: At, value: At) -> Result<(), Reason> {
        if self.occurs(at, value)? {
            return Err(Reason::Occurs);
        }
        if self.held + self.bound.len() >= BINDINGS {
            return Err(Reason::Bindings);
        }
        if let Some(variable) = self.environment.variable(at) {
            self.environment.bind(variable, value);
            self.bound.push((variable, value));
        }
        Ok(())
    }

    /// Does the value of an expression contain an unbound variable?
    fn occurs(&mut self, variable: At, within: At) -> Result<bool, Reason> {
        let mut left = vec![within];
        while let Some(at) = left.pop() {
            self.count()?;
            match self.environment.follow(at) {
                End::Unbound(end) if end == variable => return Ok(true),
                End::Unbound(_) => {}
                End::Application(end) => left.extend(self.environment.arguments(end).rev()),
            }
        }
        Ok(false)
    }
}
