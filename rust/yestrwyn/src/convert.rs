//! Files converted to the other form.

use std::io;

use yestrwyn_types::limits::FILE_BYTES;
use yestrwyn_types::{Cells, ConversionRefusal, Converted, Tables, CONVERTED_CELLS};

use crate::exported::{to_new_numbers, to_old_numbers};
use crate::stack::with_stack;

/// A conversion by the library, with its answer in numbers.
type Numbers = fn(&[u8], &mut Tables<'_>, &mut [u8], &mut [u32]);

/// Converts a file of the old form to the new one: records of kind 8 fall away, and every input clause has the days beside it that
/// the last of them gives it. The converted file has the same verdict on each day.
///
/// The file is checked first. It is refused with the reason and the record of the check, or with
/// [`Reason::ConvertedLength`](crate::Reason::ConvertedLength) if the converted file would have over 3,276 records. All runs on a
/// thread of its own with stack enough for every file; the outer error is the system's, where it gives no thread.
///
/// ```no_run
/// let file = std::fs::read("trip.proof")?;
/// match yestrwyn::to_new(&file)? {
///     Ok(converted) => std::fs::write("trip.store", converted)?,
///     Err(refusal) => println!("{refusal}: {}", refusal.reason), // refused 5 at 9: ..
/// }
/// # std::io::Result::Ok(())
/// ```
pub fn to_new(file: &[u8]) -> io::Result<Result<Vec<u8>, ConversionRefusal>> {
    owned(file, to_new_numbers)
}

/// The same with tables and an output that the caller lends. The converted file is written at the start of the output; what
/// comes after it is left alone, and so is the whole output with a refusal. Afterwards the tables hold what stands of the file.
/// An output of fewer than 65,536 bytes is refused with reason 2 before anything is touched; tables that are too short are refused
/// with 2 as well, where the refusal's `file` is 1.
pub fn to_new_into(file: &[u8], tables: &mut Tables<'_>, output: &mut [u8]) -> io::Result<Converted> {
    with_stack(|| to_new_here(file, tables, output))
}

/// The same on the caller's own stack, of which 8 MiB must be left: [`check_here`](crate::check_here) says why.
pub fn to_new_here(file: &[u8], tables: &mut Tables<'_>, output: &mut [u8]) -> Converted {
    here(file, tables, output, to_new_numbers)
}

/// Converts a file of the new form to the old one, which readouts, [`covers`](crate::covers()), [`merge`](crate::merge()) and
/// [`Board`](crate::Board) take: straight after each input clause that is not always in force stands a record of kind 8 with its
/// days. The converted file has the same verdict on each day.
///
/// The file is checked first, by the new form. It is refused with the reason and the record of that check, or with
/// [`Reason::ConvertedLength`](crate::Reason::ConvertedLength) if the converted file would have over 4,096 records. All runs on a
/// thread of its own with stack enough for every file; the outer error is the system's, where it gives no thread.
pub fn to_old(file: &[u8]) -> io::Result<Result<Vec<u8>, ConversionRefusal>> {
    owned(file, to_old_numbers)
}

/// The same with tables and an output that the caller lends, as for [`to_new_into`].
pub fn to_old_into(file: &[u8], tables: &mut Tables<'_>, output: &mut [u8]) -> io::Result<Converted> {
    with_stack(|| to_old_here(file, tables, output))
}

/// The same on the caller's own stack, of which 8 MiB must be left: [`check_here`](crate::check_here) says why.
pub fn to_old_here(file: &[u8], tables: &mut Tables<'_>, output: &mut [u8]) -> Converted {
    here(file, tables, output, to_old_numbers)
}

/// The bytes of a converted file, or why there are none.
fn owned(file: &[u8], numbers: Numbers) -> io::Result<Result<Vec<u8>, ConversionRefusal>> {
    let (mut cells, mut output) = (Cells::new(), vec![0; FILE_BYTES]);
    Ok(match with_stack(|| here(file, &mut cells.lend(), &mut output, numbers))? {
        Converted::Written { length } => {
            output.truncate(length as usize);
            Ok(output)
        }
        Converted::Refused(refusal) => Err(refusal),
    })
}

/// A conversion with its answer as a value.
fn here(file: &[u8], tables: &mut Tables<'_>, output: &mut [u8], convert: Numbers) -> Converted {
    let mut numbers = [0; CONVERTED_CELLS];
    convert(file, tables, output, &mut numbers);
    Converted::from_numbers(numbers)
}
