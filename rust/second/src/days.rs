//! Days on which input clauses are in force, and which empty clause comes from such clauses alone.

use crate::clause::{Clause, Origin};

/// The first and the last day on which an input clause is in force, both included.
#[derive(Clone, Copy, PartialEq, Eq, Debug)]
pub struct Window {
    pub first: u16,
    pub last: u16,
}

impl Window {
    /// Every day: what a clause has that no record gives its days.
    pub const ALWAYS: Window = Window { first: 0, last: u16::MAX };

    /// Is this day one of them?
    pub fn holds(self, day: u16) -> bool {
        self.first <= day && day <= self.last
    }
}

/// The lowest empty clause whose derivation uses only input clauses in force on a day. There is a window for each clause;
/// that of a derived one is not looked at. Parents have smaller numbers, so one pass does.
pub fn first_empty(clauses: &[Clause], windows: &[Window], day: u16) -> Option<u16> {
    let mut in_force: Vec<bool> = Vec::with_capacity(clauses.len());
    for ((number, clause), window) in (0..).zip(clauses).zip(windows) {
        let holds = holds_on(clause, *window, day, &in_force);
        if holds && clause.literals == 0 {
            return Some(number);
        }
        in_force.push(holds);
    }
    None
}

/// For each clause, whether its derivation uses only input clauses in force on a day.
pub fn in_force(clauses: &[Clause], windows: &[Window], day: u16) -> Vec<bool> {
    let mut in_force: Vec<bool> = Vec::with_capacity(clauses.len());
    for (clause, window) in clauses.iter().zip(windows) {
        in_force.push(holds_on(clause, *window, day, &in_force));
    }
    in_force
}

/// The same for one clause, where it is known of the earlier ones.
fn holds_on(clause: &Clause, window: Window, day: u16, in_force: &[bool]) -> bool {
    let earlier = |parent: u16| in_force.get(usize::from(parent)).copied().unwrap_or(false);
    match clause.origin {
        Origin::Input(_) => window.holds(day),
        Origin::Resolve { left, right, .. } => earlier(left) && earlier(right),
        Origin::Factor { parent, .. } => earlier(parent),
    }
}
