//! The check of a file.

use std::io;

use yestrwyn_types::{Answer, Cells, Tables, ANSWER_CELLS};

use crate::exported::check_numbers;
use crate::stack::with_stack;

/// Checks a file on a day, on a thread of its own with stack enough for every file. An error is the system's,
/// where it gives no thread; whatever the bytes are, the check itself answers.
///
/// The day decides which input clauses are in force, those that the file gives a first and a last day. A file
/// without such records gets the same answer on every day. Refusals, counts and tables never depend on it.
pub fn check(day: u16, file: &[u8]) -> io::Result<Answer> {
    check_into(day, file, &mut Cells::new().lend())
}

/// The same, with tables that the caller lends: afterwards they hold what stands. Tables that are too
/// short are refused with reason 2.
pub fn check_into(day: u16, file: &[u8], tables: &mut Tables<'_>) -> io::Result<Answer> {
    with_stack(|| check_here(day, file, tables))
}

/// The same on the caller's own stack, of which 8 MiB ([`STACK`](crate::STACK)) must be left.
///
/// A check that runs out of stack ends the process. An ordinary file takes less than 1.5 MiB, but a file
/// can be made that takes 4 MiB, and how much a call takes is measured, not proved. A thread of Rust has
/// 2 MiB unless told otherwise, a test among them: see [`with_stack`].
pub fn check_here(day: u16, file: &[u8], tables: &mut Tables<'_>) -> Answer {
    let mut numbers = [0; ANSWER_CELLS];
    check_numbers(day, file, tables, &mut numbers);
    Answer::from_numbers(numbers)
}
