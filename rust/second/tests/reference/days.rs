//! Which clauses are in force on a day, by the words of the format description.

use super::{field, unused_zero, From, Reference};

/// A record of kind 8: a clause, its first day and its last.
#[derive(Clone, Copy, Debug)]
pub struct Days {
    pub clause: usize,
    pub first: u16,
    pub last: u16,
}

impl Reference {
    pub(super) fn days(&mut self, bytes: &[u8]) -> Result<(), u16> {
        if bytes[1] != 0 || !unused_zero(bytes, 3) {
            return Err(4);
        }
        let [clause, first, last] = [0, 1, 2].map(|number| field(bytes, number));
        let clause = usize::from(clause);
        if clause >= self.clauses.len() || !matches!(self.clauses[clause].from, From::Input(_)) {
            return Err(5);
        }
        if first > last {
            return Err(16);
        }
        self.days.push(Days { clause, first, last });
        Ok(())
    }

    /// The days beside the next clause, if its record has 20 bytes.
    pub(super) fn days_beside(&self, bytes: &[u8]) -> Result<Option<Days>, u16> {
        if bytes.len() < 20 {
            return Ok(None);
        }
        let [first, last] = [7, 8].map(|number| field(bytes, number));
        if first > last {
            return Err(16);
        }
        Ok(Some(Days { clause: self.clauses.len(), first, last }))
    }

    /// Is an input clause in force? The last record for it decides, wherever it stands.
    pub fn in_force(&self, clause: usize, day: u16) -> bool {
        let last = self.days.iter().rev().find(|days| days.clause == clause);
        last.is_none_or(|days| (days.first..=days.last).contains(&day))
    }

    /// The first clause without literals of whose uses each is in force.
    pub fn accepted(&self, day: u16) -> Option<usize> {
        let holds = |clause: &usize| self.uses(*clause).into_iter().all(|used| self.in_force(used, day));
        (0..self.clauses.len()).filter(|&clause| self.literals(clause).is_empty()).find(holds)
    }
}
