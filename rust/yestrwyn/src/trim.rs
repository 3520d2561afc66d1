//! Files trimmed to what their accepted clause uses.

use std::io;

use yestrwyn_types::limits::FILE_BYTES;
use yestrwyn_types::{Cells, Tables, TrimRefusal, Trimmed, TRIMMED_CELLS};

use crate::exported::trim_numbers;
use crate::stack::with_stack;

/// Trims a file that is accepted on a day, for example for the archive of a declined quote: it keeps the clauses that the accepted
/// clause is made of, the rows and symbols of their literals, with repeated rows replaced by the earliest, and the last record of
/// days of each of these input clauses. Records stay in their order and numbers close up. The trimmed file is accepted on the same
/// day with its last clause, and trimmed again it is the same.
///
/// The file is of the old form and is checked first. It is refused with the reason and the record of the check, or with
/// [`Reason::NotAccepted`](crate::Reason::NotAccepted) if it stands but is not accepted on that day. All runs on a thread of its
/// own with stack enough for every file; the outer error is the system's, where it gives no thread.
///
/// ```no_run
/// let file = std::fs::read("declined.proof")?;
/// match yestrwyn::trim(21_000, &file)? {
///     Ok(trimmed) => std::fs::write("archive.proof", trimmed)?,
///     Err(refusal) => println!("{refusal}: {}", refusal.reason), // refused 23 at 0: ..
/// }
/// # std::io::Result::Ok(())
/// ```
pub fn trim(day: u16, file: &[u8]) -> io::Result<Result<Vec<u8>, TrimRefusal>> {
    let (mut cells, mut output) = (Cells::new(), vec![0; FILE_BYTES]);
    Ok(match trim_into(day, file, &mut cells.lend(), &mut output)? {
        Trimmed::Written { length } => {
            output.truncate(length as usize);
            Ok(output)
        }
        Trimmed::Refused(refusal) => Err(refusal),
    })
}

/// The same with tables and an output that the caller lends. The trimmed file is written at the start of the output; what
/// comes after it is left alone, and so is the whole output with a refusal. Afterwards the tables hold what stands of the file that
/// was given, not of the trimmed one. An output of fewer than 65,536 bytes is refused with reason 2 before anything is touched;
/// tables that are too short are refused with 2 as well, where the refusal's `file` is 1.
pub fn trim_into(day: u16, file: &[u8], tables: &mut Tables<'_>, output: &mut [u8]) -> io::Result<Trimmed> {
    with_stack(|| trim_here(day, file, tables, output))
}

/// The same on the caller's own stack, of which 8 MiB must be left: [`check_here`](crate::check_here) says why.
pub fn trim_here(day: u16, file: &[u8], tables: &mut Tables<'_>, output: &mut [u8]) -> Trimmed {
    let mut numbers = [0; TRIMMED_CELLS];
    trim_numbers(day, file, tables, output, &mut numbers);
    Trimmed::from_numbers(numbers)
}
