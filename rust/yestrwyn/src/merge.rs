//! Two files merged into one.

use std::io;

use yestrwyn_types::limits::FILE_BYTES;
use yestrwyn_types::{Cells, MergeRefusal, Merged, Tables, MERGED_CELLS};

use crate::exported::merge_numbers;
use crate::stack::with_stack;

/// Merges two files into one, for example an operator's rulebook and the facts of a trip: the records of the first, then
/// those of the second with the numbers of rows and clauses raised. The merged file stands, and its input clauses are those
/// of the first, then those of the second, term for term and with their days. A planner can append its steps to it.
///
/// Both files are checked first. They are refused with the reason of the check, with the number of the file; if one holds a
/// step ([`Reason::MergedStep`](crate::Reason::MergedStep)); if neither's list of symbols begins the other's
/// ([`Reason::MergedSymbols`](crate::Reason::MergedSymbols)); or if the merged file would have over 4,096 records
/// ([`Reason::MergedLength`](crate::Reason::MergedLength)). All runs on a thread of its own with stack enough for every file;
/// the outer error is the system's, where it gives no thread.
///
/// ```no_run
/// let (rulebook, trip) = (std::fs::read("rulebook.proof")?, std::fs::read("trip.proof")?);
/// match yestrwyn::merge(&rulebook, &trip)? {
///     Ok(merged) => std::fs::write("merged.proof", merged)?,
///     Err(refusal) => println!("{refusal}: {}", refusal.reason), // file 2: refused 17 at 9: ..
/// }
/// # std::io::Result::Ok(())
/// ```
pub fn merge(first: &[u8], second: &[u8]) -> io::Result<Result<Vec<u8>, MergeRefusal>> {
    let mut output = vec![0; FILE_BYTES];
    Ok(match merge_into(first, second, &mut Cells::new().lend(), &mut output)? {
        Merged::Written { length } => {
            output.truncate(length as usize);
            Ok(output)
        }
        Merged::Refused(refusal) => Err(refusal),
    })
}

/// The same with tables and an output that the caller lends. The merged file is written at the start of the output; what
/// comes after it is left alone, and so is the whole output with a refusal. Afterwards the tables hold what stands of the
/// second file, or of the first if that is refused. An output of fewer than 65,536 bytes is refused with reason 2 before
/// anything is touched; tables that are too short are refused with 2 as well, in file 1.
pub fn merge_into(
    first: &[u8],
    second: &[u8],
    tables: &mut Tables<'_>,
    output: &mut [u8],
) -> io::Result<Merged> {
    with_stack(|| merge_here(first, second, tables, output))
}

/// The same on the caller's own stack, of which 8 MiB must be left: [`check_here`](crate::check_here) says why.
///
/// ```no_run
/// # fn trips() -> Vec<Vec<u8>> { Vec::new() }
/// # fn send(merged: &[u8]) {}
/// // One rulebook with many trips, on one thread with stack enough.
/// let rulebook = std::fs::read("rulebook.proof")?;
/// let (mut cells, mut output) = (yestrwyn::Cells::new(), vec![0; yestrwyn::limits::FILE_BYTES]);
/// yestrwyn::with_stack(|| {
///     for trip in trips() {
///         let merged = yestrwyn::merge_here(&rulebook, &trip, &mut cells.lend(), &mut output);
///         if let Some(length) = merged.length() {
///             send(&output[..length]);
///         }
///     }
/// })?;
/// # std::io::Result::Ok(())
/// ```
pub fn merge_here(first: &[u8], second: &[u8], tables: &mut Tables<'_>, output: &mut [u8]) -> Merged {
    let mut numbers = [0; MERGED_CELLS];
    merge_numbers(first, second, tables, output, &mut numbers);
    Merged::from_numbers(numbers)
}
