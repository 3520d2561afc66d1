//! A file that is there already, read and run so that a builder goes on from it.

use yestrwyn_types::record::{kind, Record};
use yestrwyn_types::{Dated, Form, Reason};

use super::RunningBuilder;
use crate::error::{BuildError, ReadError};
use crate::file::{each_record, reason, well_formed, Step};
use crate::handles::{Clause, Row, Symbol};
use crate::standing::Derived;

impl RunningBuilder {
    /// Reads a file of the old form, to go on from it, and runs every step of it. It is read if and only if it stands.
    ///
    /// ```
    /// # use std::error::Error;
    /// # use yestrwyn_builder::{neg, pos, FileBuilder, RunningBuilder};
    /// # let mut file = FileBuilder::new();
    /// # let closed = file.symbol(0)?;
    /// # let closed = file.constant(closed)?;
    /// # file.clause(&[pos(closed)])?;
    /// # file.clause(&[neg(closed)])?;
    /// # let merged = file.finish();
    /// let mut file = RunningBuilder::from_bytes(&merged)?;
    /// let (rule, fact) = (file.existing_clause(0)?, file.existing_clause(1)?);
    /// let step = file.resolve(rule.literal(1), fact.literal(1))?;
    /// assert!(step.is_empty() && file.accepted(0) == Some(step.clause));
    /// # Ok::<(), Box<dyn Error>>(())
    /// ```
    pub fn from_bytes(bytes: &[u8]) -> Result<RunningBuilder, ReadError> {
        RunningBuilder::from_bytes_form(Form::Old, bytes)
    }

    /// The same for a file of either form, which keeps its form.
    pub fn from_bytes_form(form: Form, bytes: &[u8]) -> Result<RunningBuilder, ReadError> {
        let mut running = RunningBuilder::with_form(form);
        each_record(form, bytes, |dated| running.read(dated))?;
        Ok(running)
    }

    /// The symbol of a number.
    pub fn existing_symbol(&self, number: u16) -> Result<Symbol, BuildError> {
        self.file.existing_symbol(number)
    }

    /// The row of a number, or the earliest row that equals it.
    pub fn existing_row(&self, number: u16) -> Result<Row, BuildError> {
        self.file.existing_row(number)
    }

    /// The clause of a number, an input clause or what a step has made.
    pub fn existing_clause(&self, number: u16) -> Result<Clause, BuildError> {
        self.file.existing_clause(number)
    }

    /// Reads the next record, which is written as it is, or says for which reason it is not.
    fn read(&mut self, dated: &Dated) -> Result<(), Reason> {
        let record = &dated.record;
        if matches!(record.kind, kind::RESOLVE | kind::FACTOR | kind::RESOLVE_SEVERAL) {
            well_formed(self.form(), dated)?;
            return self.read_step(record).map(drop).map_err(reason);
        }
        self.file.read(dated)?;
        let [clause, first, last, ..] = record.fields;
        match record.kind {
            kind::INPUT => {
                let literals = self.file.literals_of(record).map_err(reason)?;
                let (clause, [first, last]) = (self.written_input(&literals), dated.days);
                self.windows.insert(clause, first..=last);
            }
            kind::WINDOW => drop(self.windows.insert(clause, first..=last)),
            _ => {}
        }
        Ok(())
    }

    /// Runs a step.
    fn read_step(&mut self, record: &Record) -> Result<Derived, BuildError> {
        let Step { left, rights } = Step::of(record);
        match (record.kind, rights.as_slice()) {
            (kind::RESOLVE, &[right]) => self.resolve(left, right),
            (kind::FACTOR, &[deleted]) => self.factor(left, deleted),
            _ => self.resolve_several(left, &rights),
        }
    }
}
