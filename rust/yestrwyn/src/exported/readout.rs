//! The two readouts, piece by piece.

use yestrwyn_types::Tables;

/// Cells of the progress that are written.
pub const PROGRESS_CELLS: usize = 3;

/// One of the two readouts in numbers: [`readout_numbers`] or [`canonical_readout_numbers`].
pub type ReadoutNumbers = fn(u16, &[u8], &mut Tables<'_>, u16, &mut [u8], &mut [u64]);

/// A readout as the library exports it.
type Exported = unsafe extern "C" fn(
    day: u16,
    file: *const u8,
    file_len: usize,
    symbols: *mut u16,
    symbols_len: usize,
    rows: *mut u16,
    rows_len: usize,
    clauses: *mut u16,
    clauses_len: usize,
    bindings: *mut u16,
    bindings_len: usize,
    clause: u16,
    output: *mut u8,
    output_len: usize,
    progress: *mut u64,
    progress_len: usize,
);

extern "C" {
    fn checker_readout(
        day: u16,
        file: *const u8,
        file_len: usize,
        symbols: *mut u16,
        symbols_len: usize,
        rows: *mut u16,
        rows_len: usize,
        clauses: *mut u16,
        clauses_len: usize,
        bindings: *mut u16,
        bindings_len: usize,
        clause: u16,
        output: *mut u8,
        output_len: usize,
        progress: *mut u64,
        progress_len: usize,
    );

    fn checker_canonical_readout(
        day: u16,
        file: *const u8,
        file_len: usize,
        symbols: *mut u16,
        symbols_len: usize,
        rows: *mut u16,
        rows_len: usize,
        clauses: *mut u16,
        clauses_len: usize,
        bindings: *mut u16,
        bindings_len: usize,
        clause: u16,
        output: *mut u8,
        output_len: usize,
        progress: *mut u64,
        progress_len: usize,
    );
}

/// A piece of the readout on a day; the progress is three numbers. With fewer than three cells for it nothing
/// is touched.
pub fn readout_numbers(
    day: u16,
    file: &[u8],
    tables: &mut Tables<'_>,
    clause: u16,
    output: &mut [u8],
    progress: &mut [u64],
) {
    call(checker_readout, day, file, tables, clause, output, progress);
}

/// A piece of the second readout, as [`readout_numbers`] gives one of the first.
pub fn canonical_readout_numbers(
    day: u16,
    file: &[u8],
    tables: &mut Tables<'_>,
    clause: u16,
    output: &mut [u8],
    progress: &mut [u64],
) {
    call(checker_canonical_readout, day, file, tables, clause, output, progress);
}

/// Hands slices to a readout.
fn call(
    readout: Exported,
    day: u16,
    file: &[u8],
    tables: &mut Tables<'_>,
    clause: u16,
    output: &mut [u8],
    progress: &mut [u64],
) {
    let Tables { symbols, rows, clauses, bindings } = tables;
    // Safety: as for the check, of both readouts; output and progress are slices of their own.
    unsafe {
        readout(
            day,
            file.as_ptr(),
            file.len(),
            symbols.as_mut_ptr(),
            symbols.len(),
            rows.as_mut_ptr(),
            rows.len(),
            clauses.as_mut_ptr(),
            clauses.len(),
            bindings.as_mut_ptr(),
            bindings.len(),
            clause,
            output.as_mut_ptr(),
            output.len(),
            progress.as_mut_ptr(),
            progress.len(),
        );
    }
}
