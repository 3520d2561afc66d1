//! The check.

use yestrwyn_types::Tables;

extern "C" {
    fn checker_check(
        day: u16,
        file: *const u8,
        file_len: usize,
        symbols: *mut u16,
        symbols_len: usize,
        rows: *mut u16,
        rows_len: usize,
        clauses: *mut u16,
        clauses_len: usize,
        bindings: *mut u16,
        bindings_len: usize,
        answer: *mut u16,
        answer_len: usize,
    );
}

/// Checks a file on a day; the answer is seven numbers. With fewer than seven cells for it nothing is touched.
pub fn check_numbers(day: u16, file: &[u8], tables: &mut Tables<'_>, answer: &mut [u16]) {
    let Tables { symbols, rows, clauses, bindings } = tables;
    // Safety: each pointer comes from a slice and is passed with that slice's length, so it is valid
    // and aligned; the mutable slices overlap nothing. The function stays within these lengths.
    unsafe {
        checker_check(
            day,
            file.as_ptr(),
            file.len(),
            symbols.as_mut_ptr(),
            symbols.len(),
            rows.as_mut_ptr(),
            rows.len(),
            clauses.as_mut_ptr(),
            clauses.len(),
            bindings.as_mut_ptr(),
            bindings.len(),
            answer.as_mut_ptr(),
            answer.len(),
        );
    }
}
