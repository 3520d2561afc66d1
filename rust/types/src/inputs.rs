//! The input clauses of a file that was checked, with their days.

use std::collections::HashMap;
use std::ops::RangeInclusive;

use crate::record::kind;
use crate::{Answer, Cells, Dated, Form, Verdict};

/// Cells of a clause in the table of clauses, the first of which is its record.
const CLAUSE: usize = 5;

/// An input clause as the file has it. Its terms are in the clause's line of the readout.
#[derive(Clone, PartialEq, Eq, Hash, Debug)]
pub struct InputClause {
    /// Its number among the clauses.
    pub clause: u16,
    /// The number of its record.
    pub record: u16,
    /// Its literals as the record has them: twice the row, plus 1 if positive.
    pub literals: Vec<u16>,
    /// The first and the last day on which it is in force, by the last record of kind 8 for it, or in the new form as they stand
    /// beside it. Without such a record, or with 0 and 65,535 beside it, it is in force always, and this is none.
    pub days: Option<RangeInclusive<u16>>,
}

impl InputClause {
    /// Is it in force on a day?
    pub fn in_force(&self, day: u16) -> bool {
        self.days.as_ref().is_none_or(|days| days.contains(&day))
    }
}

/// The input clauses of a file, in their order, with their days: what a broker compares with an operator's rulebook. Answer
/// and tables are those that a check of this file, on whatever day, has given; of a refused file these are the clauses
/// before the record that is refused, with the days that stand there.
pub fn input_clauses<'a>(
    file: &'a [u8],
    answer: &Answer,
    cells: &'a Cells,
) -> impl Iterator<Item = InputClause> + 'a {
    input_clauses_form(Form::Old, file, answer, cells)
}

/// The same of a file of either form, with the answer and the tables of a check that was told this form.
pub fn input_clauses_form<'a>(
    form: Form,
    file: &'a [u8],
    answer: &Answer,
    cells: &'a Cells,
) -> impl Iterator<Item = InputClause> + 'a {
    let mut days = days_in(form, file, answer.verdict);
    let records = cells.clauses.chunks_exact(CLAUSE).map(|clause| clause[0]);
    (0..answer.clauses).zip(records).filter_map(move |(clause, number)| {
        let dated = form.read(file, number).filter(|dated| dated.record.kind == kind::INPUT)?;
        let literals = dated.record.fields.iter().copied().take(usize::from(dated.record.count)).collect();
        let [first, last] = dated.days;
        let beside = (dated.days != Dated::ALWAYS).then_some(first..=last);
        Some(InputClause { clause, record: number, literals, days: days.remove(&clause).or(beside) })
    })
}

/// The days that records of kind 8 give to clauses; a later record supersedes an earlier one. A file of the new form that stands
/// has no such record.
fn days_in(form: Form, file: &[u8], verdict: Verdict) -> HashMap<u16, RangeInclusive<u16>> {
    let standing = match verdict {
        Verdict::Refused { record, .. } => usize::from(record),
        Verdict::Accepted(_) | Verdict::Open => file.len() / form.record_bytes(),
    };
    let records = (0..).map_while(|number| form.read(file, number)).take(standing);
    let windows = records.map(|dated| dated.record).filter(|record| record.kind == kind::WINDOW);
    windows.map(|record| (record.fields[0], record.fields[1]..=record.fields[2])).collect()
}
