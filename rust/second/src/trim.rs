//! A file trimmed to what its accepted clause uses: the clauses of its derivation, the rows that the literals of those input clauses
//! reach, their symbols, and the last record of days of each of these clauses. Records stay in their order and numbers close up.
//!
//! Rows and input clauses are written from what was read, in which each row is the earliest of its equals already; so no row is
//! looked up in the file again.

use yestrwyn_types::limits::{FILE_BYTES, RECORD_BYTES};
use yestrwyn_types::record::{kind, read, Record};
use yestrwyn_types::{Cells, Form, Tables, TrimRefusal, Trimmed, Verdict};

use crate::check::check_tables;
use crate::checker::Checker;
use crate::clause::{Clause, Origin};
use crate::expression::Node;

/// The trimmed file of a file of the old form that is accepted on a day, or why there is none.
pub fn trim(day: u16, file: &[u8]) -> Result<Vec<u8>, TrimRefusal> {
    let mut output = vec![0; FILE_BYTES];
    let length = trimmed(day, file, &mut Cells::new().lend(), &mut output)?;
    output.truncate(length);
    Ok(output)
}

/// The same into an output that is lent, of 65,536 bytes at least, with tables that are lent and left as the check of the
/// file leaves them. Past the trimmed file the output is left alone, and all of it with a refusal. If it is too short, so are
/// the tables.
pub fn trim_into(day: u16, file: &[u8], tables: &mut Tables<'_>, output: &mut [u8]) -> Trimmed {
    match trimmed(day, file, tables, output) {
        Ok(length) => Trimmed::Written { length: u32::try_from(length).unwrap_or(u32::MAX) },
        Err(refusal) => Trimmed::Refused(refusal),
    }
}

/// The trim, with the length of the file that it has written.
fn trimmed(day: u16, file: &[u8], tables: &mut Tables<'_>, output: &mut [u8]) -> Result<usize, TrimRefusal> {
    if output.len() < FILE_BYTES {
        return Err(TrimRefusal::of_the_output());
    }
    let (answer, checker) = check_tables(Form::Old, day, file, tables, &mut Vec::new());
    match (answer.verdict, checker) {
        (Verdict::Refused { reason, record }, _) => Err(TrimRefusal::of_the_file(reason, record)),
        (Verdict::Accepted(empty), Some(checker)) => Ok(Trim::new(&checker, empty).write(file, output)),
        (Verdict::Accepted(_) | Verdict::Open, _) => Err(TrimRefusal::not_accepted()),
    }
}

/// For each number the one that it gets, if it is kept.
struct Closed(Vec<Option<u16>>);

impl Closed {
    /// Those that are marked, numbered in their order.
    fn marked(marks: &[bool]) -> Closed {
        let mut next = 0;
        let number = |&kept: &bool| {
            let closed = kept.then_some(next);
            next += u16::from(kept);
            closed
        };
        Closed(marks.iter().map(number).collect())
    }

    /// The number that a kept one gets.
    fn of(&self, number: u16) -> Option<u16> {
        self.0.get(usize::from(number)).copied().flatten()
    }

    /// The same where it is known to be kept.
    fn kept(&self, number: u16) -> u16 {
        self.of(number).unwrap_or(0)
    }
}

/// What is kept of a file, with the numbers that it gets.
struct Trim<'a> {
    checker: &'a Checker,
    symbols: Closed,
    rows: Closed,
    clauses: Closed,
}

impl<'a> Trim<'a> {
    /// What a clause uses.
    fn new(checker: &'a Checker, clause: u16) -> Trim<'a> {
        let clauses = reached(checker.clauses(), vec![clause], parents);
        let rows = reached(checker.nodes(), literal_rows(checker.clauses(), &clauses), arguments);
        let symbols = symbols_of(checker, &rows);
        let [symbols, rows, clauses] = [symbols, rows, clauses].map(|marks| Closed::marked(&marks));
        Trim { checker, symbols, rows, clauses }
    }

    /// Writes the records that are kept, and says how many bytes they have.
    fn write(&self, file: &[u8], output: &mut [u8]) -> usize {
        let superseding = self.superseding(file);
        let mut next = Next::default();
        let records = (0..).map_while(|number| Some((number, read(file, number)?)));
        let kept = records.filter_map(|(number, record)| match record.kind {
            kind::WINDOW => self.window(record).filter(|_| superseding[usize::from(number)]),
            _ => self.closed(record, next.take(record.kind)),
        });
        let mut length = 0;
        for (place, record) in output.chunks_exact_mut(RECORD_BYTES).zip(kept) {
            place.copy_from_slice(&record.to_bytes());
            length += RECORD_BYTES;
        }
        length
    }

    /// For each record, whether it is the last record of days for its clause.
    fn superseding(&self, file: &[u8]) -> Vec<bool> {
        let mut last = vec![None; self.checker.clauses().len()];
        let mut superseding = vec![false; file.len() / RECORD_BYTES];
        let records = (0..).map_while(|number| Some((number, read(file, number)?)));
        for (number, record) in records.filter(|(_, record)| record.kind == kind::WINDOW) {
            let Some(place) = last.get_mut(usize::from(record.fields[0])) else { continue };
            superseding[usize::from(number)] = true;
            if let Some(earlier) = place.replace(usize::from(number)) {
                superseding[earlier] = false;
            }
        }
        superseding
    }

    /// A record that makes the symbol, row or clause of a number, if it is kept.
    fn closed(&self, record: Record, number: u16) -> Option<Record> {
        match record.kind {
            kind::SYMBOL => self.symbols.of(number).map(|_| record),
            kind::VARIABLE | kind::APPLICATION => self.rows.of(number).map(|_| self.row(record, number)),
            _ => self.clauses.of(number).map(|_| self.clause(record, number)),
        }
    }

    /// A kept row, from its node.
    fn row(&self, record: Record, number: u16) -> Record {
        match self.checker.nodes().get(usize::from(number)) {
            Some(&Node::Application { symbol, count, arguments }) => {
                let mut fields = [0; 7];
                fields[0] = self.symbols.kept(symbol);
                for (field, &argument) in fields[1..].iter_mut().zip(&arguments[..usize::from(count)]) {
                    *field = self.rows.kept(argument);
                }
                Record { fields, ..record }
            }
            _ => record,
        }
    }

    /// A kept clause: an input clause from its literals, a step with its parents' numbers closed up. Literal numbers stay.
    fn clause(&self, record: Record, number: u16) -> Record {
        let mut fields = record.fields;
        match self.checker.clauses().get(usize::from(number)).map(|clause| clause.origin) {
            Some(Origin::Input(codes)) => {
                for (field, code) in fields.iter_mut().zip(codes).take(usize::from(record.count)) {
                    *field = 2 * self.rows.kept(code / 2) + code % 2;
                }
            }
            Some(Origin::Resolve { left, right, .. }) => {
                [fields[0], fields[2]] = [left, right].map(|parent| self.clauses.kept(parent));
            }
            Some(Origin::Factor { parent, .. }) => fields[0] = self.clauses.kept(parent),
            None => {}
        }
        Record { fields, ..record }
    }

    /// A record of days, if its clause is kept.
    fn window(&self, record: Record) -> Option<Record> {
        let mut fields = record.fields;
        fields[0] = self.clauses.of(fields[0])?;
        Some(Record { fields, ..record })
    }
}

/// The numbers of the next symbol, row and clause.
#[derive(Default)]
struct Next {
    symbol: u16,
    row: u16,
    clause: u16,
}

impl Next {
    /// The number of what a record of a kind makes, which is then taken.
    fn take(&mut self, made: u8) -> u16 {
        let next = match made {
            kind::SYMBOL => &mut self.symbol,
            kind::VARIABLE | kind::APPLICATION => &mut self.row,
            _ => &mut self.clause,
        };
        *next += 1;
        *next - 1
    }
}

/// Marks what is reached from some numbers of a list: those, and whatever one that is reached names. Each is taken up once.
fn reached<T>(list: &[T], from: Vec<u16>, name: fn(&T, &mut Vec<u16>)) -> Vec<bool> {
    let mut marks = vec![false; list.len()];
    let mut open = from;
    while let Some(number) = open.pop() {
        let (Some(mark), Some(at)) = (marks.get_mut(usize::from(number)), list.get(usize::from(number)))
        else {
            continue;
        };
        if !*mark {
            *mark = true;
            name(at, &mut open);
        }
    }
    marks
}

/// Adds the parents of a clause.
fn parents(clause: &Clause, open: &mut Vec<u16>) {
    match clause.origin {
        Origin::Input(_) => {}
        Origin::Resolve { left, right, .. } => open.extend([left, right]),
        Origin::Factor { parent, .. } => open.push(parent),
    }
}

/// Adds the arguments of a row.
fn arguments(node: &Node, open: &mut Vec<u16>) {
    if let Node::Application { count, arguments, .. } = node {
        open.extend_from_slice(&arguments[..usize::from(*count)]);
    }
}

/// The rows of the literals of the marked input clauses.
fn literal_rows(clauses: &[Clause], marks: &[bool]) -> Vec<u16> {
    let mut rows = Vec::new();
    for (clause, _) in clauses.iter().zip(marks).filter(|(_, &kept)| kept) {
        if let Origin::Input(codes) = clause.origin {
            rows.extend(codes.iter().take(usize::from(clause.literals)).map(|code| code / 2));
        }
    }
    rows
}

/// Marks the symbols of the marked rows.
fn symbols_of(checker: &Checker, rows: &[bool]) -> Vec<bool> {
    let mut marks = vec![false; checker.symbols().len()];
    for (node, _) in checker.nodes().iter().zip(rows).filter(|(_, &kept)| kept) {
        if let Node::Application { symbol, .. } = node {
            if let Some(mark) = marks.get_mut(usize::from(*symbol)) {
                *mark = true;
            }
        }
    }
    marks
}
