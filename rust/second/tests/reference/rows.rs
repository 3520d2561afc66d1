//! Rows as the file has them, and the earliest equal row that each is taken as.

use super::Reference;

/// What a record of a row says.
#[derive(Clone, Debug, PartialEq)]
pub enum Row {
    Variable(u16),
    Application(u16, Vec<u16>),
}

impl Reference {
    /// What a row is taken as.
    pub fn earliest(&self, row: u16) -> u16 {
        self.rows[usize::from(row)].2
    }

    /// A row with its arguments replaced by what they are taken as.
    pub fn taken(&self, row: u16) -> Row {
        match &self.rows[usize::from(row)].1 {
            Row::Variable(number) => Row::Variable(*number),
            Row::Application(symbol, arguments) => {
                Row::Application(*symbol, arguments.iter().map(|&argument| self.earliest(argument)).collect())
            }
        }
    }

    /// The first row that equals the next one, which may be that itself.
    pub(super) fn earliest_equal(&self, next: &Row) -> u16 {
        let found = self.rows.iter().position(|(_, earlier, _)| self.equal(earlier, next));
        found.unwrap_or(self.rows.len()) as u16
    }

    /// Are two rows equal, with arguments compared by what they are taken as?
    fn equal(&self, one: &Row, other: &Row) -> bool {
        match (one, other) {
            (Row::Application(f, ls), Row::Application(g, rs)) => {
                let mut arguments = ls.iter().zip(rs);
                f == g && arguments.all(|(&l, &r)| self.earliest(l) == self.earliest(r))
            }
            _ => one == other,
        }
    }

    /// The term of a row as the file has it, with every repetition written out.
    pub fn written_out(&self, row: u16) -> String {
        match &self.rows[usize::from(row)].1 {
            Row::Variable(number) => format!("v{number}"),
            Row::Application(symbol, arguments) => {
                let inner: Vec<String> =
                    arguments.iter().map(|&argument| self.written_out(argument)).collect();
                format!("s{symbol}({})", inner.join(","))
            }
        }
    }
}
