//! A file, written record by record.

mod existing;
mod naming;

use std::collections::{BTreeMap, HashMap};
use std::ops::RangeInclusive;

use yestrwyn_types::limits::{ARITY, INPUT_LITERALS, RECORD_BYTES, RIGHT_LITERALS, VARIABLES};
use yestrwyn_types::record::{kind, Record};
use yestrwyn_types::{Dated, Form};

use crate::error::BuildError;
use crate::handles::{Clause, Literal, Row, Signed, Symbol};

pub(crate) use existing::{each_record, reason, well_formed, Step};

/// A file under construction. What it tests of each record are ranges, arities, and that everything
/// named is there; whether a step stands it does not test.
#[derive(Clone, Default, Debug)]
pub struct FileBuilder {
    form: Form,
    bytes: Vec<u8>,
    arities: Vec<u8>,
    /// The records of all rows, each with the earliest equal rows for its arguments.
    rows: Vec<Record>,
    /// For each row the earliest that equals it. Only a file that was read has rows that equal earlier ones.
    earliest: Vec<Row>,
    shared: HashMap<Record, Row>,
    clauses: Vec<Written>,
    /// The names that symbols were given, which are no part of the file.
    names: BTreeMap<u16, String>,
}

/// What is known of a clause that was written.
#[derive(Clone, Copy, Debug)]
struct Written {
    /// How many literals it has.
    literals: u16,
    /// Where the record of an input clause begins in the file; none for a clause that a step has made.
    input: Option<usize>,
}

impl FileBuilder {
    /// An empty file of the old form.
    pub fn new() -> FileBuilder {
        FileBuilder::default()
    }

    /// An empty file of either form. In the new form the days of an input clause stand beside it: see
    /// [`in_force`](FileBuilder::in_force). The check has to be told the form of a file.
    ///
    /// ```
    /// # use yestrwyn_builder::{neg, BuildError, FileBuilder, Form};
    /// let mut file = FileBuilder::with_form(Form::New);
    /// let closed = file.symbol(0)?;
    /// let closed = file.constant(closed)?;
    /// let curfew = file.clause(&[neg(closed)])?;
    /// file.in_force(curfew, 20_939..=21_122)?;
    /// assert_eq!(file.finish().len(), 3 * 20); // no record for the days
    /// # Ok::<(), BuildError>(())
    /// ```
    pub fn with_form(form: Form) -> FileBuilder {
        FileBuilder { form, ..FileBuilder::default() }
    }

    /// The form of the file.
    pub fn form(&self) -> Form {
        self.form
    }

    /// The bytes of the file.
    pub fn finish(self) -> Vec<u8> {
        self.bytes
    }

    /// The bytes so far.
    pub fn bytes(&self) -> &[u8] {
        &self.bytes
    }

    /// A new symbol of an arity, 0 to 6.
    pub fn symbol(&mut self, arity: u8) -> Result<Symbol, BuildError> {
        if arity > ARITY {
            return Err(BuildError::Arity(arity));
        }
        self.write(Record::new(kind::SYMBOL, arity, &[]))?;
        let number = next(&mut self.arities, arity);
        Ok(Symbol { number, arity })
    }

    /// The variable of a number, 0 to 63. It belongs to the clause in which it stands: begin with 0 in
    /// each.
    pub fn variable(&mut self, number: u16) -> Result<Row, BuildError> {
        if usize::from(number) >= VARIABLES {
            return Err(BuildError::Variable(number));
        }
        self.row(Record::new(kind::VARIABLE, 0, &[number]))
    }

    /// A symbol without arguments.
    pub fn constant(&mut self, symbol: Symbol) -> Result<Row, BuildError> {
        self.apply(symbol, &[])
    }

    /// A symbol applied to as many terms as its arity says.
    pub fn apply(&mut self, symbol: Symbol, arguments: &[Row]) -> Result<Row, BuildError> {
        if arguments.len() != usize::from(symbol.arity) {
            return Err(BuildError::Arguments { arity: symbol.arity, given: arguments.len() });
        }
        self.known(symbol)?;
        let mut fields = vec![symbol.number];
        for &argument in arguments {
            self.record(argument)?;
            fields.push(argument.0);
        }
        self.row(Record::new(kind::APPLICATION, symbol.arity, &fields))
    }

    /// An input clause of up to seven literals.
    pub fn clause(&mut self, literals: &[Signed]) -> Result<Clause, BuildError> {
        let count = u8::try_from(literals.len()).ok().filter(|&count| count <= INPUT_LITERALS);
        let count = count.ok_or(BuildError::Literals(literals.len()))?;
        let mut fields = Vec::new();
        for &Signed { positive, atom } in literals {
            if self.record(atom)?.kind == kind::VARIABLE {
                return Err(BuildError::VariableLiteral);
            }
            fields.push(2 * atom.0 + u16::from(positive));
        }
        self.input(Dated::old(Record::new(kind::INPUT, count, &fields)))
    }

    /// A resolution step on a literal of the left clause and one of the right.
    pub fn resolve(&mut self, left: Literal, right: Literal) -> Result<Clause, BuildError> {
        let literals = (self.count(left)? - 1).saturating_add(self.count(right)? - 1);
        let fields = [left.clause.0, left.number, right.clause.0, right.number];
        self.write(Record::new(kind::RESOLVE, 0, &fields))?;
        Ok(self.derived(literals))
    }

    /// A resolution step on a literal of the left clause and one to four of the right, which are all unified with it
    /// and none of which stays. Their numbers must rise, or the check refuses the step.
    ///
    /// ```
    /// # use yestrwyn_builder::{neg, pos, BuildError, FileBuilder};
    /// # let mut file = FileBuilder::new();
    /// # let p = file.symbol(1)?;
    /// # let (x, y) = (file.variable(0)?, file.variable(1)?);
    /// # let (px, py) = (file.apply(p, &[x])?, file.apply(p, &[y])?);
    /// let either = file.clause(&[pos(px), pos(py)])?;
    /// let neither = file.clause(&[neg(px), neg(py)])?;
    /// let half = file.resolve_several(either.literal(1), &[neither.literal(1), neither.literal(2)])?;
    /// let empty = file.resolve_several(half.literal(1), &[neither.literal(1), neither.literal(2)])?;
    /// # Ok::<(), BuildError>(())
    /// ```
    pub fn resolve_several(&mut self, left: Literal, rights: &[Literal]) -> Result<Clause, BuildError> {
        let (right, count) = right_clause(rights)?;
        let left_rest = self.count(left)? - 1;
        // All are literals of one clause, so that the last count is as good as any.
        let right_literals = rights.iter().try_fold(0, |_, &right| self.count(right))?;
        let literals = left_rest.saturating_add(right_literals.saturating_sub(count.into()));
        let mut fields = vec![left.clause.0, left.number, right.0];
        fields.extend(rights.iter().map(|right| right.number));
        self.write(Record::new(kind::RESOLVE_SEVERAL, count, &fields))?;
        Ok(self.derived(literals))
    }

    /// A factoring step that keeps one literal of a clause and deletes another.
    pub fn factor(&mut self, kept: Literal, deleted: Literal) -> Result<Clause, BuildError> {
        if kept.clause != deleted.clause {
            return Err(BuildError::TwoClauses);
        }
        let literals = self.count(kept)?.min(self.count(deleted)?) - 1;
        let fields = [kept.clause.0, kept.number, deleted.number];
        self.write(Record::new(kind::FACTOR, 0, &fields))?;
        Ok(self.derived(literals))
    }

    /// The days on which an input clause is in force: the first and the last, both included. A later call for the same
    /// clause supersedes an earlier one, and a clause without any is in force always. What day 0 is, those who use the
    /// files agree on, for example 1 January 1970. In the old form this writes a record; in the new one the days are written beside
    /// the clause, where they take no room.
    ///
    /// ```
    /// # use yestrwyn_builder::{neg, BuildError, FileBuilder};
    /// # let mut file = FileBuilder::new();
    /// # let closed = file.symbol(0)?;
    /// # let closed = file.constant(closed)?;
    /// let curfew = file.clause(&[neg(closed)])?;
    /// file.in_force(curfew, 20_939..=21_122)?; // 1 May to 31 October 2027
    /// # Ok::<(), BuildError>(())
    /// ```
    pub fn in_force(&mut self, clause: Clause, days: RangeInclusive<u16>) -> Result<(), BuildError> {
        let written = self.clauses.get(usize::from(clause.0)).ok_or(BuildError::Foreign)?;
        let place = written.input.ok_or(BuildError::Derived(clause.0))?;
        let (first, last) = days.into_inner();
        in_order([first, last])?;
        match self.form {
            Form::Old => self.write(Record::new(kind::WINDOW, 0, &[clause.0, first, last])),
            Form::New => {
                self.put_days(place, [first, last]);
                Ok(())
            }
        }
    }

    /// The records of all rows.
    pub(crate) fn rows(&self) -> &[Record] {
        &self.rows
    }

    /// The symbol of a number.
    pub(crate) fn symbol_of(&self, number: u16) -> Symbol {
        let arity = self.arities.get(usize::from(number)).copied().unwrap_or(0);
        Symbol { number, arity }
    }

    /// How many literals the clause of a literal has, if the literal is one of them.
    fn count(&self, Literal { clause, number }: Literal) -> Result<u16, BuildError> {
        let Written { literals, .. } = *self.clauses.get(usize::from(clause.0)).ok_or(BuildError::Foreign)?;
        match number {
            1.. if number <= literals => Ok(literals),
            _ => Err(BuildError::NoLiteral { number, literals }),
        }
    }

    /// The clause of a step that was written.
    fn derived(&mut self, literals: u16) -> Clause {
        Clause(next(&mut self.clauses, Written { literals, input: None }))
    }

    /// Writes the record of an input clause.
    fn input(&mut self, dated: Dated) -> Result<Clause, BuildError> {
        let (literals, place) = (dated.record.count.into(), self.bytes.len());
        self.write_dated(dated)?;
        Ok(Clause(next(&mut self.clauses, Written { literals, input: Some(place) })))
    }

    /// Puts days beside the record that begins at a place of a file of the new form.
    fn put_days(&mut self, place: usize, days: [u16; 2]) {
        let beside = self.bytes.iter_mut().skip(place + RECORD_BYTES);
        for (byte, day) in beside.zip(days.into_iter().flat_map(u16::to_le_bytes)) {
            *byte = day;
        }
    }

    /// An error if a symbol is not one of this file.
    fn known(&self, symbol: Symbol) -> Result<(), BuildError> {
        match self.arities.get(usize::from(symbol.number)) {
            Some(&arity) if arity == symbol.arity => Ok(()),
            _ => Err(BuildError::Foreign),
        }
    }

    /// The record of a row.
    fn record(&self, row: Row) -> Result<Record, BuildError> {
        self.rows.get(usize::from(row.0)).copied().ok_or(BuildError::Foreign)
    }

    /// The equal row if there is one, otherwise a new one.
    fn row(&mut self, record: Record) -> Result<Row, BuildError> {
        if let Some(&row) = self.shared.get(&record) {
            return Ok(row);
        }
        self.write(record)?;
        Ok(self.written_row(record))
    }

    /// The row of a record that was written: itself, or the earliest that equals it. Its arguments are earliest rows.
    fn written_row(&mut self, record: Record) -> Row {
        let row = Row(next(&mut self.rows, record));
        let earliest = *self.shared.entry(record).or_insert(row);
        self.earliest.push(earliest);
        earliest
    }

    /// Writes a record, if there is room for it.
    fn write(&mut self, record: Record) -> Result<(), BuildError> {
        self.write_dated(Dated::old(record))
    }

    /// The same with the days that stand beside it in the new form.
    fn write_dated(&mut self, dated: Dated) -> Result<(), BuildError> {
        if self.bytes.len() >= self.form.file_bytes() {
            return Err(BuildError::Full);
        }
        match self.form {
            Form::Old => self.bytes.extend_from_slice(&dated.record.to_bytes()),
            Form::New => self.bytes.extend_from_slice(&dated.to_bytes()),
        }
        Ok(())
    }
}

/// The one clause of a step's right literals, and how many these are.
pub(crate) fn right_clause(rights: &[Literal]) -> Result<(Clause, u8), BuildError> {
    let count = u8::try_from(rights.len()).ok().filter(|&count| count <= RIGHT_LITERALS);
    let (Some(count), Some(first)) = (count, rights.first()) else {
        return Err(BuildError::RightLiterals(rights.len()));
    };
    let one = rights.iter().all(|right| right.clause == first.clause);
    one.then_some((first.clause, count)).ok_or(BuildError::TwoClauses)
}

/// An error unless the first day is not after the last.
fn in_order([first, last]: [u16; 2]) -> Result<(), BuildError> {
    if first > last {
        return Err(BuildError::Days { first, last });
    }
    Ok(())
}

/// Adds to a list and returns the place; no list has more entries than a file has records.
fn next<T>(list: &mut Vec<T>, entry: T) -> u16 {
    list.push(entry);
    u16::try_from(list.len() - 1).unwrap_or(u16::MAX)
}
