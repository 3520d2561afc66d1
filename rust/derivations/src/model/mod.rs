//! What a checked file says: its symbols, rows, clauses and bindings, from its bytes and the tables that the check left.

mod clauses;
mod reading;
mod rows;
mod uses;

pub use clauses::{Clause, Literal, Origin};
pub use reading::origin;
pub use rows::{Binding, Expression, Node, Row, Symbol};

use yestrwyn_types::{Answer, Cells, Dated, Form, Verdict};

/// A file that was checked. Its records up to the end, or up to the one that was refused, are taken apart.
///
/// What it says is no more than the tables and the bytes say: which rows are equal, how many literals and uses a clause has and what was
/// put for variables stands in the tables, which the check is proved to fill. How it is put together here is tested and not proved.
pub struct Model<'a> {
    form: Form,
    file: &'a [u8],
    answer: Answer,
    symbols: Vec<Symbol>,
    rows: Vec<Row>,
    clauses: Vec<Clause>,
    bindings: Vec<Binding>,
}

impl<'a> Model<'a> {
    /// The model of a file, with the answer and the tables that a check of it gave. None where they do not fit together, which is where they
    /// are not those of a check of this file in this form.
    pub fn read(form: Form, file: &'a [u8], answer: &Answer, cells: &Cells) -> Option<Model<'a>> {
        reading::read(form, file, answer, cells)
    }

    /// The form of the file.
    pub fn form(&self) -> Form {
        self.form
    }

    /// The bytes of the file.
    pub fn file(&self) -> &'a [u8] {
        self.file
    }

    /// The answer of the check.
    pub fn answer(&self) -> &Answer {
        &self.answer
    }

    /// The clause that is accepted, if one is.
    pub fn accepted(&self) -> Option<u16> {
        match self.answer.verdict {
            Verdict::Accepted(clause) => Some(clause),
            Verdict::Open | Verdict::Refused { .. } => None,
        }
    }

    /// A record of the file, if it is wholly inside.
    pub fn record(&self, number: u16) -> Option<Dated> {
        self.form.read(self.file, number)
    }

    /// The symbols that stand.
    pub fn symbols(&self) -> &[Symbol] {
        &self.symbols
    }

    /// The rows that stand.
    pub fn rows(&self) -> &[Row] {
        &self.rows
    }

    /// The clauses that stand.
    pub fn clauses(&self) -> &[Clause] {
        &self.clauses
    }

    /// The bindings of all clauses that stand.
    pub fn bindings(&self) -> &[Binding] {
        &self.bindings
    }

    /// A clause that stands.
    pub fn clause(&self, number: u16) -> Option<&Clause> {
        self.clauses.get(usize::from(number))
    }

    /// A literal of a clause that stands, by its number from 1.
    pub fn literal(&self, clause: u16, number: u16) -> Option<Literal> {
        let place = usize::from(number).checked_sub(1)?;
        self.clause(clause)?.literals.get(place).copied()
    }

    /// What a row of this model is. The row must be one of it.
    pub fn node(&self, row: u16) -> &Node {
        &self.rows[usize::from(row)].node
    }
}
