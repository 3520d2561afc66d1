//! Which clause is accepted on a day.

use std::collections::HashMap;
use std::ops::RangeInclusive;

use crate::derivation::{Derivation, Origin};

/// The days of the input clauses that were given some, by their numbers.
pub(crate) type Windows = HashMap<u16, RangeInclusive<u16>>;

/// The lowest empty clause of whose derivation every input clause is in force on a day. Parents come before what is made of
/// them, so one pass over the clauses does.
pub(crate) fn accepted(clauses: &[Derivation], windows: &Windows, day: u16) -> Option<u16> {
    let mut in_force: Vec<bool> = Vec::with_capacity(clauses.len());
    for (number, clause) in (0..).zip(clauses) {
        let earlier = |parent: u16| in_force.get(usize::from(parent)).copied().unwrap_or(false);
        let holds = match clause.origin {
            Origin::Input => windows.get(&number).is_none_or(|days| days.contains(&day)),
            Origin::Factor { parent } => earlier(parent),
            Origin::Resolve { left, right } => earlier(left) && earlier(right),
        };
        if holds && clause.literals.is_empty() {
            return Some(number);
        }
        in_force.push(holds);
    }
    None
}
