//! Files converted to the other form.

use yestrwyn_types::Tables;

/// A function of the library that converts a file.
type Conversion = unsafe extern "C" fn(
    file: *const u8,
    file_len: usize,
    symbols: *mut u16,
    symbols_len: usize,
    rows: *mut u16,
    rows_len: usize,
    clauses: *mut u16,
    clauses_len: usize,
    bindings: *mut u16,
    bindings_len: usize,
    output: *mut u8,
    output_len: usize,
    answer: *mut u32,
    answer_len: usize,
);

extern "C" {
    fn checker_to_new(
        file: *const u8,
        file_len: usize,
        symbols: *mut u16,
        symbols_len: usize,
        rows: *mut u16,
        rows_len: usize,
        clauses: *mut u16,
        clauses_len: usize,
        bindings: *mut u16,
        bindings_len: usize,
        output: *mut u8,
        output_len: usize,
        answer: *mut u32,
        answer_len: usize,
    );

    fn checker_to_old(
        file: *const u8,
        file_len: usize,
        symbols: *mut u16,
        symbols_len: usize,
        rows: *mut u16,
        rows_len: usize,
        clauses: *mut u16,
        clauses_len: usize,
        bindings: *mut u16,
        bindings_len: usize,
        output: *mut u8,
        output_len: usize,
        answer: *mut u32,
        answer_len: usize,
    );
}

/// Converts a file of the old form to the new one, into the output; the answer is four numbers. With fewer than four cells for
/// it nothing is touched.
pub fn to_new_numbers(file: &[u8], tables: &mut Tables<'_>, output: &mut [u8], answer: &mut [u32]) {
    convert(checker_to_new, file, tables, output, answer);
}

/// The same for a file of the new form, which is converted to the old one.
pub fn to_old_numbers(file: &[u8], tables: &mut Tables<'_>, output: &mut [u8], answer: &mut [u32]) {
    convert(checker_to_old, file, tables, output, answer);
}

/// Calls one of the two.
fn convert(
    conversion: Conversion,
    file: &[u8],
    tables: &mut Tables<'_>,
    output: &mut [u8],
    answer: &mut [u32],
) {
    let Tables { symbols, rows, clauses, bindings } = tables;
    // Safety: as for the check; output and answer are slices of their own.
    unsafe {
        conversion(
            file.as_ptr(),
            file.len(),
            symbols.as_mut_ptr(),
            symbols.len(),
            rows.as_mut_ptr(),
            rows.len(),
            clauses.as_mut_ptr(),
            clauses.len(),
            bindings.as_mut_ptr(),
            bindings.len(),
            output.as_mut_ptr(),
            output.len(),
            answer.as_mut_ptr(),
            answer.len(),
        );
    }
}
