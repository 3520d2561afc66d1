//! The check of a file of either form.

use std::io;

use yestrwyn_types::{Answer, Cells, Form, Tables, ANSWER_CELLS};

use crate::exported::check_form_numbers;
use crate::stack::with_stack;

/// Checks a file of either form on a day, on a thread of its own with stack enough for every file: as [`check`](crate::check())
/// does, which takes files of the old form. The bytes of a file do not say its form, so the caller does. An error is the
/// system's, where it gives no thread.
///
/// ```no_run
/// use yestrwyn::Form;
///
/// let file = std::fs::read("trip.store")?;
/// let answer = yestrwyn::check_form(Form::New, 21_000, &file)?;
/// println!("{}", answer.verdict); // accepted N, open, or refused R at K
/// # std::io::Result::Ok(())
/// ```
pub fn check_form(form: Form, day: u16, file: &[u8]) -> io::Result<Answer> {
    check_form_into(form, day, file, &mut Cells::new().lend())
}

/// The same, with tables that the caller lends: afterwards they hold what stands. Tables that are too
/// short are refused with reason 2.
pub fn check_form_into(form: Form, day: u16, file: &[u8], tables: &mut Tables<'_>) -> io::Result<Answer> {
    with_stack(|| check_form_here(form, day, file, tables))
}

/// The same on the caller's own stack, of which 8 MiB must be left: [`check_here`](crate::check_here) says why.
pub fn check_form_here(form: Form, day: u16, file: &[u8], tables: &mut Tables<'_>) -> Answer {
    let mut numbers = [0; ANSWER_CELLS];
    check_form_numbers(form.number(), day, file, tables, &mut numbers);
    Answer::from_numbers(numbers)
}
