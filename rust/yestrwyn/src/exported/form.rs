//! The check of a file of either form.

use yestrwyn_types::Tables;

extern "C" {
    fn checker_check_form(
        form: u16,
        day: u16,
        file: *const u8,
        file_len: usize,
        symbols: *mut u16,
        symbols_len: usize,
        rows: *mut u16,
        rows_len: usize,
        clauses: *mut u16,
        clauses_len: usize,
        bindings: *mut u16,
        bindings_len: usize,
        answer: *mut u16,
        answer_len: usize,
    );
}

/// Checks a file of a form on a day; the answer is seven numbers. The form is 16 or 20, the number of a
/// [`Form`](yestrwyn_types::Form). With another, or with fewer than seven cells for the answer, nothing is touched.
pub fn check_form_numbers(form: u16, day: u16, file: &[u8], tables: &mut Tables<'_>, answer: &mut [u16]) {
    let Tables { symbols, rows, clauses, bindings } = tables;
    // Safety: as for the check; the form is a number, and any is taken.
    unsafe {
        checker_check_form(
            form,
            day,
            file.as_ptr(),
            file.len(),
            symbols.as_mut_ptr(),
            symbols.len(),
            rows.as_mut_ptr(),
            rows.len(),
            clauses.as_mut_ptr(),
            clauses.len(),
            bindings.as_mut_ptr(),
            bindings.len(),
            answer.as_mut_ptr(),
            answer.len(),
        );
    }
}
