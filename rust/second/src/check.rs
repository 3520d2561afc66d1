//! The check of a whole file.

use yestrwyn_types::record::kind;
use yestrwyn_types::{Answer, Cells, Dated, Form, Reason, Tables};

use crate::checker::Checker;
use crate::filling::fill;

/// The work of one step that came as far as its outlines, whether it stood or not.
#[derive(Clone, Copy, PartialEq, Eq, Debug)]
pub struct StepWork {
    /// The step's record.
    pub record: u16,
    /// The work that was begun; none where the outlines clash.
    pub work: u32,
}

/// Checks a file of the old form on a day.
pub fn check(day: u16, file: &[u8]) -> Answer {
    check_form(Form::Old, day, file)
}

/// Checks a file of either form on a day.
pub fn check_form(form: Form, day: u16, file: &[u8]) -> Answer {
    check_form_into(form, day, file, &mut Cells::new().lend())
}

/// Checks a file of the old form on a day and fills the four tables, which do not depend on the day. Cells past their least
/// lengths are left alone, and with reasons 1 and 2 so are the tables.
pub fn check_into(day: u16, file: &[u8], tables: &mut Tables<'_>) -> Answer {
    check_form_into(Form::Old, day, file, tables)
}

/// The same for a file of either form.
pub fn check_form_into(form: Form, day: u16, file: &[u8], tables: &mut Tables<'_>) -> Answer {
    check_tables(form, day, file, tables, &mut Vec::new()).0
}

/// The check of a file of the old form, which also adds the work of each step to `works`.
pub fn check_counting(day: u16, file: &[u8], tables: &mut Tables<'_>, works: &mut Vec<StepWork>) -> Answer {
    check_tables(Form::Old, day, file, tables, works).0
}

/// The check, with the checker that holds what stands if any record was read.
pub fn check_tables(
    form: Form,
    day: u16,
    file: &[u8],
    tables: &mut Tables<'_>,
    works: &mut Vec<StepWork>,
) -> (Answer, Option<Checker>) {
    if !form.fits(file.len()) {
        return (Answer::refused_whole(Reason::Length), None);
    }
    if !tables.long_enough() {
        return (Answer::refused_whole(Reason::Table), None);
    }
    let (checker, refusal) = read_records(form, file, works);
    fill(tables, &checker);
    (checker.answer(day, refusal), Some(checker))
}

/// Reads records up to the end or the first one that does not stand.
fn read_records(form: Form, file: &[u8], works: &mut Vec<StepWork>) -> (Checker, Option<Reason>) {
    let mut checker = Checker::new();
    for (number, dated) in (0..).map_while(|number| Some((number, form.read(file, number)?))) {
        let result = of_the_form(form, &dated).and_then(|()| checker.dated(&dated));
        if let Some(work) = checker.last_work() {
            works.push(StepWork { record: number, work });
        }
        if let Err(reason) = result {
            return (checker, Some(reason));
        }
    }
    (checker, None)
}

/// In the new form there is no kind 8: days stand beside their clause.
fn of_the_form(form: Form, dated: &Dated) -> Result<(), Reason> {
    match (form, dated.record.kind) {
        (Form::New, kind::WINDOW) => Err(Reason::Kind),
        _ => Ok(()),
    }
}
