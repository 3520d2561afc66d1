//! The board of a checked file: input clauses are withdrawn and returned, and it says which empty clause stands.

use std::io;

use yestrwyn_types::limits::BOARD_CELLS;
use yestrwyn_types::record::{kind, read};
use yestrwyn_types::{BoardAnswer, BoardRefusal, Cells, ClauseState, BOARD_ANSWER_CELLS};

use crate::exported::{board_open_numbers, board_return_numbers, board_withdraw_numbers};
use crate::stack::with_stack;

/// A function of the library that withdraws or returns a clause.
type Change = fn(&[u8], &[u16], &mut [u16], u16, &mut [u16]);

/// The board of a file on a day: which of its input clauses are present, and which clauses then stand.
///
/// At the start every input clause is present. One that is withdrawn, because a notice is lifted, can be returned later. A derived
/// clause stands if all input clauses of its derivation are present. The answer is the lowest standing empty clause whose input
/// clauses are all in force on the day, or none: while there is one, the clauses that are present and in force cannot all be
/// true. A call passes over the cells of the clauses after it as far as anything can change, and does not check the file again.
///
/// The board owns file, tables and cells, so that nobody else can write to them between calls; then every answer is proved to be the
/// one worked out afresh from the clauses that are present.
///
/// ```no_run
/// let file = std::fs::read("declined.proof")?;
/// let mut board = match yestrwyn::Board::open(21_000, file)? {
///     Ok(board) => board,
///     Err(refusal) => return Err(std::io::Error::other(refusal)), // the file does not stand
/// };
/// assert_eq!(board.answer(), Some(10)); // no lawful plan
/// let lifted = board.withdraw(1).expect("clause 1 is an input clause, and present");
/// assert_eq!(lifted, None); // without the curfew nothing is shown
/// assert_eq!(board.give_back(1), Ok(Some(10))); // an hour later it is restored
/// # std::io::Result::Ok(())
/// ```
#[derive(Clone, Debug)]
pub struct Board {
    file: Vec<u8>,
    tables: Cells,
    cells: Vec<u16>,
    answer: Option<u16>,
}

impl Board {
    /// Checks a file on a day and opens its board, on a thread of its own with stack enough for every file. The outer error is the
    /// system's, where it gives no thread; the inner one the check's refusal of the file, with its record.
    pub fn open(day: u16, file: impl Into<Vec<u8>>) -> io::Result<Result<Board, BoardRefusal>> {
        let file = file.into();
        with_stack(|| Board::open_here(day, file))
    }

    /// The same on the caller's own stack, of which 8 MiB must be left: [`check_here`](crate::check_here) says why.
    pub fn open_here(day: u16, file: impl Into<Vec<u8>>) -> Result<Board, BoardRefusal> {
        let (file, mut tables, mut cells) = (file.into(), Cells::new(), vec![0; BOARD_CELLS]);
        let mut numbers = [0; BOARD_ANSWER_CELLS];
        board_open_numbers(day, &file, &mut tables.lend(), &mut cells, &mut numbers);
        let answer = BoardAnswer::from_numbers(numbers).result()?;
        Ok(Board { file, tables, cells, answer })
    }

    /// The lowest standing empty clause whose input clauses are all in force on the day, or none.
    pub fn answer(&self) -> Option<u16> {
        self.answer
    }

    /// Withdraws an input clause, by its number, and gives the answer anew. Refused with
    /// [`Reason::NotAnInput`](crate::Reason::NotAnInput) if there is no input clause of that number, a derived one too, and with
    /// [`Reason::Already`](crate::Reason::Already) if it is withdrawn already; the board is then as it was.
    ///
    /// It runs on the caller's own stack, of which it takes little: the file is not checked again.
    pub fn withdraw(&mut self, clause: u16) -> Result<Option<u16>, BoardRefusal> {
        self.change(clause, board_withdraw_numbers)
    }

    /// Returns an input clause that was withdrawn, and gives the answer anew. Refused as [`withdraw`](Board::withdraw) is, with
    /// [`Reason::Already`](crate::Reason::Already) if the clause is present.
    pub fn give_back(&mut self, clause: u16) -> Result<Option<u16>, BoardRefusal> {
        self.change(clause, board_return_numbers)
    }

    /// The day by which input clauses are in force or not.
    pub fn day(&self) -> u16 {
        self.cells[BOARD_CELLS - 1]
    }

    /// Is there an input clause of this number, and is it present? A derived clause is never called present: ask whether it
    /// [`stands`](Board::stands).
    pub fn is_present(&self, clause: u16) -> bool {
        self.is_input(clause) && self.stands(clause)
    }

    /// Is there a clause of this number, and are all input clauses of its derivation present?
    pub fn stands(&self, clause: u16) -> bool {
        self.state(clause).is_some_and(|state| state.stands)
    }

    /// Is there a clause of this number, and are all input clauses of its derivation in force on the day? An input clause that is
    /// withdrawn is in force or not as before.
    pub fn in_force(&self, clause: u16) -> bool {
        self.state(clause).is_some_and(|state| state.in_force)
    }

    /// What the board has of a clause; nothing if there is none of this number.
    pub fn state(&self, clause: u16) -> Option<ClauseState> {
        let clauses = &self.cells[..BOARD_CELLS - 1];
        clauses.get(usize::from(clause)).and_then(|&cell| ClauseState::from_cell(cell))
    }

    /// The file.
    pub fn file(&self) -> &[u8] {
        &self.file
    }

    /// The tables, as the check of the file left them.
    pub fn tables(&self) -> &Cells {
        &self.tables
    }

    /// The cells of the board: one for each clause, zeros up to 4,096, and the day. That of a clause has its [`ClauseState`] and its
    /// last child, the last clause that has it for a parent.
    pub fn cells(&self) -> &[u16] {
        &self.cells
    }

    /// Is there an input clause of this number?
    fn is_input(&self, clause: u16) -> bool {
        let record = self.tables.clauses.get(5 * usize::from(clause));
        let record = record.and_then(|&record| read(&self.file, record));
        self.state(clause).is_some() && record.is_some_and(|record| record.kind == kind::INPUT)
    }

    /// Has the library withdraw or return a clause.
    fn change(&mut self, clause: u16, change: Change) -> Result<Option<u16>, BoardRefusal> {
        let mut numbers = [0; BOARD_ANSWER_CELLS];
        change(&self.file, &self.tables.clauses, &mut self.cells, clause, &mut numbers);
        let answer = BoardAnswer::from_numbers(numbers).result()?;
        self.answer = answer;
        Ok(answer)
    }
}
