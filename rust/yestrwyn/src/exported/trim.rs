//! Files trimmed to what their accepted clause uses.

use yestrwyn_types::Tables;

extern "C" {
    fn checker_trim(
        day: u16,
        file: *const u8,
        file_len: usize,
        symbols: *mut u16,
        symbols_len: usize,
        rows: *mut u16,
        rows_len: usize,
        clauses: *mut u16,
        clauses_len: usize,
        bindings: *mut u16,
        bindings_len: usize,
        output: *mut u8,
        output_len: usize,
        answer: *mut u32,
        answer_len: usize,
    );
}

/// Trims a file on a day, into the output; the answer is four numbers. With fewer than four cells for it nothing is touched.
pub fn trim_numbers(day: u16, file: &[u8], tables: &mut Tables<'_>, output: &mut [u8], answer: &mut [u32]) {
    let Tables { symbols, rows, clauses, bindings } = tables;
    // Safety: as for the check; output and answer are slices of their own.
    unsafe {
        checker_trim(
            day,
            file.as_ptr(),
            file.len(),
            symbols.as_mut_ptr(),
            symbols.len(),
            rows.as_mut_ptr(),
            rows.len(),
            clauses.as_mut_ptr(),
            clauses.len(),
            bindings.as_mut_ptr(),
            bindings.len(),
            output.as_mut_ptr(),
            output.len(),
            answer.as_mut_ptr(),
            answer.len(),
        );
    }
}
