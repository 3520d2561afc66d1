//! Which input clause covers which.

use yestrwyn_types::Tables;

extern "C" {
    fn checker_covers(
        file: *const u8,
        file_len: usize,
        c: u16,
        d: u16,
        symbols: *mut u16,
        symbols_len: usize,
        rows: *mut u16,
        rows_len: usize,
        clauses: *mut u16,
        clauses_len: usize,
        bindings: *mut u16,
        bindings_len: usize,
        answer: *mut u16,
        answer_len: usize,
    );
}

/// Does input clause `c` of a file cover input clause `d`? The answer is ten numbers. With fewer than ten cells
/// for it nothing is touched.
pub fn covers_numbers(file: &[u8], c: u16, d: u16, tables: &mut Tables<'_>, answer: &mut [u16]) {
    let Tables { symbols, rows, clauses, bindings } = tables;
    // Safety: as for the check; the two clauses are passed by value, whatever their numbers.
    unsafe {
        checker_covers(
            file.as_ptr(),
            file.len(),
            c,
            d,
            symbols.as_mut_ptr(),
            symbols.len(),
            rows.as_mut_ptr(),
            rows.len(),
            clauses.as_mut_ptr(),
            clauses.len(),
            bindings.as_mut_ptr(),
            bindings.len(),
            answer.as_mut_ptr(),
            answer.len(),
        );
    }
}
