//! A board as cells that are lent: one for each clause, and the day. Opening it writes all of them; a call about an input clause
//! alters that clause's cell and passes over those after it, each from its parents, as far as a parent has changed: a cell also
//! has the last clause that has its own for a parent.
//!
//! Every call has an answer, and says what becomes of each cell, whatever board, file and table of clauses hold: what is past the
//! end of any of them is 0, and so is a record that is not wholly inside the file.

use yestrwyn_types::limits::{BOARD_CELLS, RECORDS, RECORD_BYTES};
use yestrwyn_types::record::{kind, part};
use yestrwyn_types::{BoardAnswer, BoardRefusal, ClauseState, Form, Reason, Tables, Verdict};

use crate::check::check_tables;
use crate::checker::Checker;
use crate::clause::{Clause, Origin};

/// Cells of a clause in the table of clauses: the first is its record, the second its number of literals.
const CLAUSE: usize = 5;

/// Checks a file on a day and opens its board, with every input clause present. The tables are left as the check leaves them. A
/// board of fewer than 4,097 cells is refused before all else, and nothing is touched; of a longer one the cells past these are
/// left alone, and all of it if the file is refused.
pub fn open(day: u16, file: &[u8], tables: &mut Tables<'_>, board: &mut [u16]) -> BoardAnswer {
    let Some(cells) = board.get_mut(..BOARD_CELLS) else { return refused(Reason::Table) };
    let (answer, checker) = check_tables(Form::Old, day, file, tables, &mut Vec::new());
    if let Verdict::Refused { reason, record } = answer.verdict {
        return BoardAnswer::Refused(BoardRefusal { reason, record });
    }
    cells.fill(0);
    let opened = checker.map(|checker| all_present(&checker, day)).unwrap_or_default();
    for (cell, opened) in cells.iter_mut().zip(opened) {
        *cell = opened;
    }
    cells[BOARD_CELLS - 1] = day;
    BoardAnswer::Answered(lowest(tables.clauses, board))
}

/// The cells of the clauses that stand, on a day, with every input clause present.
fn all_present(checker: &Checker, day: u16) -> Vec<u16> {
    let children = last_children(checker.clauses());
    let clauses = checker.in_force(day).into_iter().zip(children);
    clauses.map(|(in_force, child)| ClauseState { in_force, stands: true }.cell(child)).collect()
}

/// For each clause the last one that has it for a parent, or 0 if none has.
fn last_children(clauses: &[Clause]) -> Vec<u16> {
    let mut children = vec![0; clauses.len()];
    for (number, clause) in (0..).zip(clauses) {
        match clause.origin {
            Origin::Input(_) => {}
            Origin::Factor { parent, .. } => children[usize::from(parent)] = number,
            Origin::Resolve { left, right, .. } => {
                children[usize::from(left)] = number;
                children[usize::from(right)] = number;
            }
        }
    }
    children
}

/// Withdraws an input clause.
pub fn withdraw(file: &[u8], clauses: &[u16], board: &mut [u16], clause: u16) -> BoardAnswer {
    call(file, clauses, board, clause, false)
}

/// Returns an input clause that was withdrawn.
pub fn give_back(file: &[u8], clauses: &[u16], board: &mut [u16], clause: u16) -> BoardAnswer {
    call(file, clauses, board, clause, true)
}

/// Makes an input clause present or withdrawn, and gives the answer anew; with a refusal no cell is altered.
fn call(file: &[u8], clauses: &[u16], board: &mut [u16], clause: u16, present: bool) -> BoardAnswer {
    let number = usize::from(clause);
    if board.len() < BOARD_CELLS {
        return refused(Reason::Table);
    }
    let is_input = kind_of(record_of(file, clauses, number)) == kind::INPUT;
    if number >= RECORDS || board[number] < 4 || !is_input {
        return refused(Reason::NotAnInput);
    }
    if stands(board[number]) == present {
        return refused(Reason::Already);
    }
    let child = last_child(board[number]);
    board[number] = ClauseState { in_force: in_force(board[number]), stands: present }.cell(child);
    pass(file, clauses, board, number + 1, usize::from(child));
    BoardAnswer::Answered(lowest(clauses, board))
}

/// One pass over the clauses from a number on, in their order, up to the last child of those that have changed: past it none has
/// a parent that did. It begins with the last child of the clause called, and each clause that changes may move it on.
fn pass(file: &[u8], clauses: &[u16], board: &mut [u16], from: usize, mut last: usize) {
    for number in from..RECORDS {
        if number > last {
            return;
        }
        let (before, after) = (board[number], made_anew(file, clauses, board, number));
        if after != before {
            board[number] = after;
            last = last.max(usize::from(last_child(before)));
        }
    }
}

/// The cell of a clause from those of its parents; that of an input clause is its own.
fn made_anew(file: &[u8], clauses: &[u16], board: &[u16], number: usize) -> u16 {
    let record = record_of(file, clauses, number);
    let parents = match kind_of(record) {
        kind::INPUT => return board[number],
        kind::FACTOR => [field(record, 2); 2],
        _ => [field(record, 2), field(record, 6)],
    };
    let [one, other] = parents.map(|parent| at(board, usize::from(parent)));
    let state =
        ClauseState { in_force: in_force(one) && in_force(other), stands: stands(one) && stands(other) };
    state.cell(last_child(board[number]))
}

/// The lowest clause that stands, is in force and has no literals.
fn lowest(clauses: &[u16], board: &[u16]) -> Option<u16> {
    let right = |number: &u16| {
        let number = usize::from(*number);
        at(board, number) % 8 == 7 && at(clauses, CLAUSE * number + 1) == 0
    };
    (0..RECORDS as u16).find(right)
}

/// The record of a clause by the table of clauses, or one of zeros if it is not wholly inside the file. A pass reads many, and of
/// each only its kind and its parents.
fn record_of<'a>(file: &'a [u8], clauses: &[u16], number: usize) -> &'a [u8; RECORD_BYTES] {
    part(file, at(clauses, CLAUSE * number)).try_into().unwrap_or(&[0; RECORD_BYTES])
}

/// Byte 0 of a record.
fn kind_of(record: &[u8; RECORD_BYTES]) -> u8 {
    record[0]
}

/// The field of a record that begins at a byte: a at 2, c at 6.
fn field(record: &[u8; RECORD_BYTES], byte: usize) -> u16 {
    u16::from_le_bytes([record[byte], record[byte + 1]])
}

/// A cell, which is 0 past the end.
fn at(cells: &[u16], place: usize) -> u16 {
    cells.get(place).copied().unwrap_or(0)
}

/// Does a cell say that all input clauses are in force? Any number can be asked, also one without a clause.
fn in_force(cell: u16) -> bool {
    cell / 2 % 2 == 1
}

/// Does a cell say that the clause stands?
fn stands(cell: u16) -> bool {
    cell % 2 == 1
}

/// The last child that a cell has. Any number can be asked.
fn last_child(cell: u16) -> u16 {
    ClauseState::last_child(cell)
}

/// A refusal that is about no record.
fn refused(reason: Reason) -> BoardAnswer {
    BoardAnswer::Refused(BoardRefusal::of_the_call(reason))
}
