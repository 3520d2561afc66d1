//! The check for services, with a workspace that is lent to it.

use yestrwyn_types::Tables;

/// The node table: eight cells for each row.
pub type Nodes = [u16; 32_768];
/// The table of origins: eight cells for each clause.
pub type Origins = [u16; 32_768];
/// The array of values, in which a step looks variables up.
pub type Values = [u16; 524_416];

extern "C" {
    fn checker_check_with(
        day: u16,
        file: *const u8,
        file_len: usize,
        symbols: *mut u16,
        symbols_len: usize,
        rows: *mut u16,
        rows_len: usize,
        clauses: *mut u16,
        clauses_len: usize,
        bindings: *mut u16,
        bindings_len: usize,
        nodes: *mut Nodes,
        origins: *mut Origins,
        values: *mut Values,
        answer: *mut u16,
        answer_len: usize,
    );
}

/// The arrays of a workspace, lent. What they hold before a call does not matter.
pub struct Arrays<'a> {
    /// Afterwards eight cells for each row that stands, then zeros: 1 and the number of a variable; 2 plus
    /// the number of arguments, the symbol and the arguments, each the earliest row that equals it; or 0 and
    /// the earliest equal row, for a row that repeats it.
    pub nodes: &'a mut Nodes,
    /// Afterwards eight cells for each clause that stands, then zeros: 1 for an input clause, 2 for a
    /// factoring step or 2 plus the number of right literals for a resolution step, and the seven fields of
    /// its record; the literals of an input clause are on the earliest rows that equal theirs.
    pub origins: &'a mut Origins,
    /// Afterwards anything.
    pub values: &'a mut Values,
}

/// Checks a file on a day as [`check_numbers`](super::check_numbers) does, with a workspace that is lent. With
/// fewer than seven cells for the answer nothing is touched; a file refused with reason 1 or 2 leaves
/// nodes and origins alone.
pub fn check_numbers_with(
    day: u16,
    file: &[u8],
    tables: &mut Tables<'_>,
    arrays: &mut Arrays<'_>,
    answer: &mut [u16],
) {
    let Tables { symbols, rows, clauses, bindings } = tables;
    let Arrays { nodes, origins, values } = arrays;
    // Safety: as for the check; the three arrays have the lengths that the function is compiled for.
    unsafe {
        checker_check_with(
            day,
            file.as_ptr(),
            file.len(),
            symbols.as_mut_ptr(),
            symbols.len(),
            rows.as_mut_ptr(),
            rows.len(),
            clauses.as_mut_ptr(),
            clauses.len(),
            bindings.as_mut_ptr(),
            bindings.len(),
            *nodes,
            *origins,
            *values,
            answer.as_mut_ptr(),
            answer.len(),
        );
    }
}
