//! Which input clause of a file covers which.

use std::io;

use yestrwyn_types::{Cells, Covering, Tables, COVERING_CELLS};

use crate::exported::covers_numbers;
use crate::stack::with_stack;

/// Does input clause `c` of a file cover input clause `d`? It does if one substitution for the variables of `c`
/// turns each of its literals into one of `d`, signs included, where the variables of `d` stand as constants.
/// Then `d` says nothing that `c` does not.
///
/// The file is checked first. If it does not stand, or a clause named is not an input clause of it, the answer is
/// a refusal with [`Reason::NoComparison`](crate::Reason::NoComparison). All runs on a thread of its own with
/// stack enough for every file; an error is the system's, where it gives no thread. Days play no part: clauses are
/// compared whether they are in force or not.
///
/// ```no_run
/// let file = std::fs::read("rulebook.proof")?;
/// let covering = yestrwyn::covers(&file, 0, 1)?;
/// match covering.outcome {
///     yestrwyn::Outcome::Yes => println!("rule 0 covers rule 1, by its literals {:?}", covering.literals),
///     yestrwyn::Outcome::No => println!("rule 0 does not cover rule 1"),
///     yestrwyn::Outcome::Refused { reason, .. } => println!("not compared: {reason}"),
/// }
/// # std::io::Result::Ok(())
/// ```
pub fn covers(file: &[u8], c: u16, d: u16) -> io::Result<Covering> {
    covers_into(file, c, d, &mut Cells::new().lend())
}

/// The same, with tables that the caller lends: afterwards they hold what stands, as after a check. Tables that
/// are too short are refused like a file that does not stand.
pub fn covers_into(file: &[u8], c: u16, d: u16, tables: &mut Tables<'_>) -> io::Result<Covering> {
    with_stack(|| covers_here(file, c, d, tables))
}

/// The same on the caller's own stack, of which 8 MiB must be left: [`check_here`](crate::check_here) says why.
/// Each call checks the file anew.
///
/// ```no_run
/// # fn file() -> Vec<u8> { Vec::new() }
/// // Every two of the first ten clauses, on one thread with stack enough.
/// let (file, mut cells) = (file(), yestrwyn::Cells::new());
/// let pairs = (0..10).flat_map(|c| (0..10).map(move |d| (c, d)));
/// let covered: Vec<(u16, u16)> = yestrwyn::with_stack(|| {
///     pairs.filter(|&(c, d)| yestrwyn::covers_here(&file, c, d, &mut cells.lend()).is_yes()).collect()
/// })?;
/// # std::io::Result::Ok(())
/// ```
pub fn covers_here(file: &[u8], c: u16, d: u16, tables: &mut Tables<'_>) -> Covering {
    let mut numbers = [0; COVERING_CELLS];
    covers_numbers(file, c, d, tables, &mut numbers);
    Covering::from_numbers(numbers)
}
