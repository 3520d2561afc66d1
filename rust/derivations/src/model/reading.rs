//! A model read from the bytes of a file and the tables of its check.

use std::collections::HashMap;

use yestrwyn_types::record::{kind, Record};
use yestrwyn_types::{input_clauses_form, Answer, Cells, Dated, Form, Verdict};

use super::clauses::{remaining, Clause, Literal, Origin};
use super::rows::{Binding, Expression, Node, Row, Symbol};
use super::Model;

/// Cells of a clause, and of a binding, in their tables.
const CLAUSE: usize = 5;
const BINDING: usize = 4;

/// The model of a file, or none where answer and tables are not those of a check of it.
pub fn read<'a>(form: Form, file: &'a [u8], answer: &Answer, cells: &Cells) -> Option<Model<'a>> {
    let (symbols, rows, clauses, bindings) = Default::default();
    let model = Model { form, file, answer: *answer, symbols, rows, clauses, bindings };
    let mut reading = Reading { model, cells, row_of_record: HashMap::new() };
    for number in 0..standing(form, file, answer.verdict) {
        let Dated { record, .. } = form.read(file, number)?;
        reading.record(number, &record)?;
    }
    reading.bindings()?;
    reading.days(answer);
    reading.counts_fit().then_some(reading.model)
}

/// How many records stand.
fn standing(form: Form, file: &[u8], verdict: Verdict) -> u16 {
    match verdict {
        Verdict::Refused { record, .. } => record,
        Verdict::Accepted(_) | Verdict::Open => {
            u16::try_from(file.len() / form.record_bytes()).unwrap_or(u16::MAX)
        }
    }
}

/// What has been read so far.
struct Reading<'a, 'c> {
    model: Model<'a>,
    cells: &'c Cells,
    /// The row that each record of a row has made.
    row_of_record: HashMap<u16, u16>,
}

impl Reading<'_, '_> {
    /// Takes a record in, which stands.
    fn record(&mut self, number: u16, record: &Record) -> Option<()> {
        match record.kind {
            kind::SYMBOL => self.model.symbols.push(Symbol { record: number, arity: record.count }),
            kind::VARIABLE => self.row(number, Node::Variable(record.fields[0]))?,
            kind::APPLICATION => {
                let arguments = record.fields.get(1..1 + usize::from(record.count))?;
                let arguments = arguments.iter().map(|&row| self.earliest(row)).collect::<Option<_>>()?;
                self.row(number, Node::Application { symbol: record.fields[0], arguments })?;
            }
            kind::WINDOW => {}
            _ => self.clause(number, record)?,
        }
        Some(())
    }

    /// The earliest row that equals a row.
    fn earliest(&self, row: u16) -> Option<u16> {
        self.model.rows.get(usize::from(row)).map(|row| row.earliest)
    }

    /// Adds a row. The table has the record of the earliest row that equals it.
    fn row(&mut self, record: u16, node: Node) -> Option<()> {
        let number = self.model.rows.len();
        self.row_of_record.insert(record, u16::try_from(number).ok()?);
        let earliest = *self.row_of_record.get(self.cells.rows.get(number)?)?;
        self.model.rows.push(Row { record, earliest, node });
        Some(())
    }

    /// Adds a clause, with what the table has of it.
    fn clause(&mut self, number: u16, record: &Record) -> Option<()> {
        let at = CLAUSE * self.model.clauses.len();
        let &[at_record, count, max_index, first, bindings] = self.cells.clauses.get(at..at + CLAUSE)? else {
            return None;
        };
        let origin = origin(record)?;
        let literals = match origin {
            Origin::Input => self.input_literals(record)?,
            _ => remaining(&self.model.clauses, &origin)?,
        };
        let sizes_fit = literals.len() == usize::from(count) && self.uses(&origin) == Some(max_index);
        let fits = at_record == number && sizes_fit;
        let first = usize::from(first);
        let bindings = first..first + usize::from(bindings);
        let clause = Clause { record: number, origin, literals, max_index, bindings, days: None };
        fits.then(|| self.model.clauses.push(clause))
    }

    /// How many uses of input clauses a clause of an origin is made of.
    fn uses(&self, origin: &Origin) -> Option<u16> {
        let uses = |&parent: &u16| Some(self.model.clauses.get(usize::from(parent))?.max_index);
        match origin {
            Origin::Input => Some(1),
            _ => origin.parents().iter().map(uses).try_fold(0u16, |sum, uses| sum.checked_add(uses?)),
        }
    }

    /// The literals of an input clause, each on the earliest row.
    fn input_literals(&self, record: &Record) -> Option<Vec<Literal>> {
        let codes = record.fields.get(..usize::from(record.count))?;
        let literal = |&code: &u16| {
            let atom = Expression { row: self.earliest(code / 2)?, index: 1 };
            Some(Literal { positive: code % 2 == 1, atom })
        };
        codes.iter().map(literal).collect()
    }

    /// Takes all bindings in.
    fn bindings(&mut self) -> Option<()> {
        let used = self.cells.bindings.get(..BINDING * usize::from(self.model.answer.bindings))?;
        for cells in used.chunks_exact(BINDING) {
            let variable = Expression { row: cells[0], index: cells[1] };
            let value = Expression { row: cells[2], index: cells[3] };
            let Node::Variable(number) = self.model.rows.get(usize::from(variable.row))?.node else {
                return None;
            };
            self.model.rows.get(usize::from(value.row))?;
            self.model.bindings.push(Binding { variable, number, value });
        }
        let held = self.model.bindings.len();
        self.model.clauses.iter().all(|clause| clause.bindings.end <= held).then_some(())
    }

    /// Gives the input clauses their days.
    fn days(&mut self, answer: &Answer) {
        let Model { form, file, .. } = self.model;
        for input in input_clauses_form(form, file, answer, self.cells) {
            if let Some(clause) = self.model.clauses.get_mut(usize::from(input.clause)) {
                clause.days = input.days;
            }
        }
    }

    /// Are there as many of everything as the answer says?
    fn counts_fit(&self) -> bool {
        let Model { symbols, rows, clauses, answer, .. } = &self.model;
        [symbols.len(), rows.len(), clauses.len()]
            == [answer.symbols, answer.rows, answer.clauses].map(usize::from)
    }
}

/// Where the clause of a record comes from, by its fields; none if it makes no clause.
pub fn origin(record: &Record) -> Option<Origin> {
    let [a, b, c, d, ..] = record.fields;
    Some(match record.kind {
        kind::INPUT => Origin::Input,
        kind::FACTOR => Origin::Factor { parent: a, kept: b, deleted: c },
        kind::RESOLVE => Origin::Resolve { left: a, left_literal: b, right: c, right_literals: vec![d] },
        kind::RESOLVE_SEVERAL => {
            let right_literals = record.fields.get(3..3 + usize::from(record.count))?.to_vec();
            Origin::Resolve { left: a, left_literal: b, right: c, right_literals }
        }
        _ => return None,
    })
}
