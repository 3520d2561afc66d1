//! Two files merged into one.

use yestrwyn_types::Tables;

extern "C" {
    fn checker_merge(
        first: *const u8,
        first_len: usize,
        second: *const u8,
        second_len: usize,
        symbols: *mut u16,
        symbols_len: usize,
        rows: *mut u16,
        rows_len: usize,
        clauses: *mut u16,
        clauses_len: usize,
        bindings: *mut u16,
        bindings_len: usize,
        output: *mut u8,
        output_len: usize,
        answer: *mut u32,
        answer_len: usize,
    );
}

/// Merges two files into the output; the answer is four numbers. With fewer than four cells for it nothing is touched.
pub fn merge_numbers(
    first: &[u8],
    second: &[u8],
    tables: &mut Tables<'_>,
    output: &mut [u8],
    answer: &mut [u32],
) {
    let Tables { symbols, rows, clauses, bindings } = tables;
    // Safety: as for the check; the two files are only read, and may be the same. Output and answer are slices of their own.
    unsafe {
        checker_merge(
            first.as_ptr(),
            first.len(),
            second.as_ptr(),
            second.len(),
            symbols.as_mut_ptr(),
            symbols.len(),
            rows.as_mut_ptr(),
            rows.len(),
            clauses.as_mut_ptr(),
            clauses.len(),
            bindings.as_mut_ptr(),
            bindings.len(),
            output.as_mut_ptr(),
            output.len(),
            answer.as_mut_ptr(),
            answer.len(),
        );
    }
}
