//! Whether the verdict on a file can depend on the day.

use yestrwyn::record::{kind, Record};
use yestrwyn::{input_clauses_form, Answer, Cells, Form, Verdict};

/// Cells of a clause in the table of clauses: its record and its number of literals are the first two.
const CLAUSE: usize = 5;

/// Can the verdict on a file be another on another day? A refusal never is, and a file without an empty clause is open on every day. If
/// the first empty clause uses only rules that are in force always, the file is accepted with it on every day; otherwise it can.
pub fn depends_on_day(form: Form, file: &[u8], answer: &Answer, cells: &Cells) -> bool {
    if matches!(answer.verdict, Verdict::Refused { .. }) {
        return false;
    }
    let clauses = || cells.clauses.chunks_exact(CLAUSE).take(answer.clauses.into());
    let Some(empty) = clauses().position(|clause| clause[1] == 0) else { return false };
    let records = clauses().map(|clause| form.read(file, clause[0]).map(|dated| dated.record));
    let mut dated = with_days(form, file, answer, cells);
    for (clause, record) in records.take(empty + 1).enumerate() {
        let of = |parent: &u16| dated.get(usize::from(*parent)).copied().unwrap_or(false);
        if record.as_ref().is_some_and(|record| parents(record).iter().any(of)) {
            dated[clause] = true;
        }
    }
    dated[empty]
}

/// For each clause whether it is an input clause that is not always in force.
fn with_days(form: Form, file: &[u8], answer: &Answer, cells: &Cells) -> Vec<bool> {
    let mut dated = vec![false; answer.clauses.into()];
    for input in input_clauses_form(form, file, answer, cells) {
        dated[usize::from(input.clause)] = input.days.is_some_and(|days| days != (0..=u16::MAX));
    }
    dated
}

/// The parents of a clause.
fn parents(record: &Record) -> Vec<u16> {
    match record.kind {
        kind::RESOLVE | kind::RESOLVE_SEVERAL => vec![record.fields[0], record.fields[2]],
        kind::FACTOR => vec![record.fields[0]],
        _ => Vec::new(),
    }
}
