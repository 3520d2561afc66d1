//! The board of a file: opened, and input clauses withdrawn and returned.

use yestrwyn_types::Tables;

extern "C" {
    fn checker_board_open(
        day: u16,
        file: *const u8,
        file_len: usize,
        symbols: *mut u16,
        symbols_len: usize,
        rows: *mut u16,
        rows_len: usize,
        clauses: *mut u16,
        clauses_len: usize,
        bindings: *mut u16,
        bindings_len: usize,
        board: *mut u16,
        board_len: usize,
        answer: *mut u16,
        answer_len: usize,
    );

    fn checker_board_withdraw(
        file: *const u8,
        file_len: usize,
        clauses: *const u16,
        clauses_len: usize,
        board: *mut u16,
        board_len: usize,
        clause: u16,
        answer: *mut u16,
        answer_len: usize,
    );

    fn checker_board_return(
        file: *const u8,
        file_len: usize,
        clauses: *const u16,
        clauses_len: usize,
        board: *mut u16,
        board_len: usize,
        clause: u16,
        answer: *mut u16,
        answer_len: usize,
    );
}

/// Checks a file on a day and opens its board; the answer is three numbers. With fewer than three cells for it nothing is
/// touched.
pub fn board_open_numbers(
    day: u16,
    file: &[u8],
    tables: &mut Tables<'_>,
    board: &mut [u16],
    answer: &mut [u16],
) {
    let Tables { symbols, rows, clauses, bindings } = tables;
    // Safety: as for the check; board and answer are slices of their own.
    unsafe {
        checker_board_open(
            day,
            file.as_ptr(),
            file.len(),
            symbols.as_mut_ptr(),
            symbols.len(),
            rows.as_mut_ptr(),
            rows.len(),
            clauses.as_mut_ptr(),
            clauses.len(),
            bindings.as_mut_ptr(),
            bindings.len(),
            board.as_mut_ptr(),
            board.len(),
            answer.as_mut_ptr(),
            answer.len(),
        );
    }
}

/// Withdraws an input clause; the answer is three numbers. Board, file and table of clauses are to be as the opening and the
/// calls since have left them; whatever they hold, the call stays inside them. With fewer than three cells for the answer nothing
/// is touched.
pub fn board_withdraw_numbers(
    file: &[u8],
    clauses: &[u16],
    board: &mut [u16],
    clause: u16,
    answer: &mut [u16],
) {
    // Safety: as for the check; file and clauses are only read, and the clause is passed by value, whatever its number.
    unsafe {
        checker_board_withdraw(
            file.as_ptr(),
            file.len(),
            clauses.as_ptr(),
            clauses.len(),
            board.as_mut_ptr(),
            board.len(),
            clause,
            answer.as_mut_ptr(),
            answer.len(),
        );
    }
}

/// Returns an input clause that was withdrawn, as [`board_withdraw_numbers`] withdraws it.
pub fn board_return_numbers(
    file: &[u8],
    clauses: &[u16],
    board: &mut [u16],
    clause: u16,
    answer: &mut [u16],
) {
    // Safety: as for the withdrawal.
    unsafe {
        checker_board_return(
            file.as_ptr(),
            file.len(),
            clauses.as_ptr(),
            clauses.len(),
            board.as_mut_ptr(),
            board.len(),
            clause,
            answer.as_mut_ptr(),
            answer.len(),
        );
    }
}
