//! Which row each row is taken as: the earliest that equals it.

use std::collections::HashMap;

use yestrwyn_types::record::Record;

/// The rows so far. Two are equal if kind, byte 1 and every field are, each argument replaced by the row that
/// it is taken as; so they are equal exactly if they are the same term.
#[derive(Default)]
pub struct Earliest {
    /// The first row of each record, by its sixteen bytes.
    first: HashMap<u128, u16>,
    /// For each row the one that it is taken as.
    taken_as: Vec<u16>,
}

impl Earliest {
    /// What a row is taken as, if there is a row of that number.
    pub fn of(&self, row: u16) -> Option<u16> {
        self.taken_as.get(usize::from(row)).copied()
    }

    /// Adds the next row, whose arguments have been replaced already, and says what it is taken as: itself if no
    /// earlier row equals it.
    pub fn add(&mut self, replaced: &Record) -> u16 {
        let next = u16::try_from(self.taken_as.len()).unwrap_or(u16::MAX);
        let earliest = *self.first.entry(u128::from_le_bytes(replaced.to_bytes())).or_insert(next);
        self.taken_as.push(earliest);
        earliest
    }
}
