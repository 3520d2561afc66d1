//! A file that is there already, read so that a builder goes on from it.

use yestrwyn_types::limits::{ARITY, INPUT_LITERALS, RIGHT_LITERALS, VARIABLES};
use yestrwyn_types::record::{kind, Record};
use yestrwyn_types::{Dated, Form, Reason};

use super::{in_order, FileBuilder};
use crate::error::{BuildError, ReadError};
use crate::handles::{Clause, Literal, Row, Signed, Symbol};

impl FileBuilder {
    /// Reads a file of the old form, to go on from it: for example one that was merged of a rulebook and the facts of a trip, to which a
    /// planner adds its steps. What it has is named by its numbers, and everything that is added comes after it.
    ///
    /// Of each record is tested what this builder tests of those that it writes. Whether a step stands is not:
    /// [`RunningBuilder::from_bytes`](crate::RunningBuilder::from_bytes) runs them all.
    ///
    /// ```
    /// # use std::error::Error;
    /// # use yestrwyn_builder::{neg, pos, FileBuilder};
    /// # let mut file = FileBuilder::new();
    /// # let closed = file.symbol(0)?;
    /// # let closed = file.constant(closed)?;
    /// # file.clause(&[pos(closed)])?;
    /// # file.clause(&[neg(closed)])?;
    /// # let merged = file.finish();
    /// let mut file = FileBuilder::from_bytes(&merged)?;
    /// let (rule, fact) = (file.existing_clause(0)?, file.existing_clause(1)?);
    /// let empty = file.resolve(rule.literal(1), fact.literal(1))?;
    /// assert_eq!(empty.number(), 2);
    /// assert!(file.finish().starts_with(&merged));
    /// # Ok::<(), Box<dyn Error>>(())
    /// ```
    pub fn from_bytes(bytes: &[u8]) -> Result<FileBuilder, ReadError> {
        FileBuilder::from_bytes_form(Form::Old, bytes)
    }

    /// Reads a file of either form, to go on from it in the same form. In the new form
    /// [`in_force`](FileBuilder::in_force) writes over the days that stand beside a clause; all other bytes stay as they are.
    pub fn from_bytes_form(form: Form, bytes: &[u8]) -> Result<FileBuilder, ReadError> {
        let mut file = FileBuilder::with_form(form);
        each_record(form, bytes, |dated| file.read(dated))?;
        Ok(file)
    }

    /// The symbol of a number.
    pub fn existing_symbol(&self, number: u16) -> Result<Symbol, BuildError> {
        let arity = self.arities.get(usize::from(number)).copied();
        let missing = BuildError::NoSymbol { number, symbols: self.arities.len() };
        arity.map(|arity| Symbol { number, arity }).ok_or(missing)
    }

    /// The row of a number, or the earliest row that equals it: a file that was read may have a term twice.
    pub fn existing_row(&self, number: u16) -> Result<Row, BuildError> {
        let row = self.earliest.get(usize::from(number)).copied();
        row.ok_or(BuildError::NoRow { number, rows: self.earliest.len() })
    }

    /// The clause of a number, an input clause or what a step has made.
    pub fn existing_clause(&self, number: u16) -> Result<Clause, BuildError> {
        let clause = self.clauses.get(usize::from(number)).map(|_| Clause(number));
        clause.ok_or(BuildError::NoClause { number, clauses: self.clauses.len() })
    }

    /// Reads the next record, which is written as it is, or says for which reason it is not.
    pub(crate) fn read(&mut self, dated: &Dated) -> Result<(), Reason> {
        well_formed(self.form, dated)?;
        let record = &dated.record;
        let read = match record.kind {
            kind::SYMBOL => self.symbol(record.count).map(drop),
            kind::VARIABLE | kind::APPLICATION => self.read_row(record),
            kind::INPUT => self.read_input(dated).map(drop),
            kind::WINDOW => self.in_force(Clause(record.fields[0]), record.fields[1]..=record.fields[2]),
            _ => self.read_step(record).map(drop),
        };
        read.map_err(reason)
    }

    /// A row. What it is taken as goes by the earliest rows for its arguments.
    fn read_row(&mut self, record: &Record) -> Result<(), BuildError> {
        let mut replaced = *record;
        if record.kind == kind::APPLICATION {
            let symbol = self.existing_symbol(record.fields[0])?;
            if symbol.arity != record.count {
                return Err(BuildError::Arguments { arity: symbol.arity, given: record.count.into() });
            }
            for argument in replaced.fields.iter_mut().skip(1).take(record.count.into()) {
                *argument = self.existing_row(*argument)?.0;
            }
        }
        self.write(*record)?;
        self.written_row(replaced);
        Ok(())
    }

    /// An input clause.
    fn read_input(&mut self, dated: &Dated) -> Result<Clause, BuildError> {
        let atoms = self.literals_of(&dated.record)?;
        in_order(dated.days)?;
        let is_variable =
            |signed: &Signed| self.record(signed.atom).map(|row| row.kind) == Ok(kind::VARIABLE);
        if atoms.iter().any(is_variable) {
            return Err(BuildError::VariableLiteral);
        }
        self.input(*dated)
    }

    /// The literals of the record of an input clause, on the earliest rows.
    pub(crate) fn literals_of(&self, record: &Record) -> Result<Vec<Signed>, BuildError> {
        let codes = record.fields.iter().take(record.count.into());
        let signed = |code: &u16| Ok(Signed { positive: code % 2 == 1, atom: self.existing_row(code / 2)? });
        codes.map(signed).collect()
    }

    /// A step.
    fn read_step(&mut self, record: &Record) -> Result<Clause, BuildError> {
        let Step { left, rights } = Step::of(record);
        match (record.kind, rights.as_slice()) {
            (kind::RESOLVE, &[right]) => self.resolve(left, right),
            (kind::FACTOR, &[deleted]) => self.factor(left, deleted),
            _ => self.resolve_several(left, &rights),
        }
    }
}

/// The literals that a step names: in a factor the one kept and the one deleted.
pub(crate) struct Step {
    pub left: Literal,
    pub rights: Vec<Literal>,
}

impl Step {
    /// Those of the record of a step.
    pub fn of(record: &Record) -> Step {
        let [a, b, c, numbers @ ..] = &record.fields;
        let left = Clause(*a).literal(*b);
        let rights = match record.kind {
            kind::FACTOR => vec![Clause(*a).literal(*c)],
            kind::RESOLVE => vec![Clause(*c).literal(numbers[0])],
            _ => numbers.iter().take(record.count.into()).map(|&number| Clause(*c).literal(number)).collect(),
        };
        Step { left, rights }
    }
}

/// Gives every record of a file to a reader, up to the first that it refuses.
pub(crate) fn each_record(
    form: Form,
    bytes: &[u8],
    mut reader: impl FnMut(&Dated) -> Result<(), Reason>,
) -> Result<(), ReadError> {
    if !form.fits(bytes.len()) {
        return Err(match form {
            Form::Old => ReadError::Length(bytes.len()),
            Form::New => ReadError::NewLength(bytes.len()),
        });
    }
    for (number, dated) in (0..).map_while(|number| Some((number, form.read(bytes, number)?))) {
        reader(&dated).map_err(|reason| ReadError::Record { record: number, reason })?;
    }
    Ok(())
}

/// The tests of a record by its own bytes: its kind, its ranges, and zeros in what it does not use.
pub(crate) fn well_formed(form: Form, dated: &Dated) -> Result<(), Reason> {
    let record = &dated.record;
    let count = usize::from(record.count);
    let (in_range, used) = match record.kind {
        kind::SYMBOL => (record.count <= ARITY, 0),
        kind::VARIABLE => (record.count == 0 && usize::from(record.fields[0]) < VARIABLES, 1),
        kind::APPLICATION => (record.count <= ARITY, 1 + count),
        kind::INPUT => (record.count <= INPUT_LITERALS, count),
        kind::RESOLVE => (record.count == 0, 4),
        kind::WINDOW if form == Form::New => return Err(Reason::Kind),
        kind::FACTOR | kind::WINDOW => (record.count == 0, 3),
        kind::RESOLVE_SEVERAL => ((1..=RIGHT_LITERALS).contains(&record.count), 3 + count),
        _ => return Err(Reason::Kind),
    };
    let no_days = record.kind == kind::INPUT || dated.no_days();
    (in_range && no_days && record.zero_from(used)).then_some(()).ok_or(Reason::Range)
}

/// The reason that the check gives for what a builder does not write, where the record is well formed.
pub(crate) fn reason(error: BuildError) -> Reason {
    match error {
        BuildError::VariableLiteral => Reason::VariableLiteral,
        BuildError::Days { .. } => Reason::Crossed,
        BuildError::Refused(reason) => reason,
        BuildError::Full => Reason::Length,
        _ => Reason::Missing,
    }
}
