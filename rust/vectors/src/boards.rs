//! The stored vectors of boards: which scripts there are, and what each call gives, as text. The format is described in
//! `README.md` beside the results.

use yestrwyn_second::board::cells;
use yestrwyn_types::limits::BOARD_CELLS;
use yestrwyn_types::{BoardAnswer, Cells};

use crate::boarding::board_script;
use crate::examples::boards::{self, Call, Script};
use crate::stored::{file_lines, hash, line};

/// The name of the group, by which its results are stored.
pub const GROUP: &str = "boards";
/// Number of random scripts.
const RANDOM_SCRIPTS: u64 = 50;
/// The cells of at most this many clauses are written out.
const CLAUSES_IN_FULL: usize = 40;

/// All scripts that are stored: the named ones, then random ones.
pub fn scripts() -> Vec<Script> {
    let mut all = boards::examples();
    all.extend((0..RANDOM_SCRIPTS).map(board_script));
    all
}

/// What every script gives, as text.
pub fn expected(scripts: &[Script]) -> String {
    let mut text = String::new();
    for script in scripts {
        describe(&mut text, script);
    }
    text
}

/// A board that is lent, of zeros at first, with the tables that go with it.
pub struct Lent {
    pub tables: Cells,
    pub board: Vec<u16>,
}

impl Lent {
    /// The board of a script, not opened yet.
    pub fn new(script: &Script) -> Lent {
        Lent { tables: Cells::new(), board: vec![0; script.cells] }
    }

    /// Opens it by the second implementation.
    pub fn open(&mut self, script: &Script) -> BoardAnswer {
        cells::open(script.day, &script.file, &mut self.tables.lend(), &mut self.board)
    }

    /// Withdraws or returns a clause by the second implementation.
    pub fn call(&mut self, file: &[u8], call: Call) -> BoardAnswer {
        let Lent { tables, board } = self;
        match call {
            Call::Withdraw(clause) => cells::withdraw(file, &tables.clauses, board, clause),
            Call::Return(clause) => cells::give_back(file, &tables.clauses, board, clause),
        }
    }
}

/// One vector's part of the text.
fn describe(text: &mut String, script: &Script) {
    let mut lent = Lent::new(script);
    line(text, "board", &script.name);
    line(text, "day", &script.day);
    file_lines(text, "file", &script.file);
    line(text, "lent", &script.cells);
    let opened = lent.open(script);
    line(text, "open", &joined(opened));
    line(text, "cells", &cells_of(&lent.board));
    for &call in &script.calls {
        let answer = lent.call(&script.file, call);
        line(text, call.word(), &format!("{} {}", call.clause(), joined(answer)));
        // A refusal alters no cell.
        if answer.result().is_ok() {
            line(text, "cells", &cells_of(&lent.board));
        }
    }
}

/// The three numbers of an answer.
fn joined(answer: BoardAnswer) -> String {
    answer.numbers().map(|number| number.to_string()).join(" ")
}

/// The hash of a board's cells, and those that have a clause, if there are few.
fn cells_of(board: &[u16]) -> String {
    let named = &board[..board.len().min(BOARD_CELLS)];
    let hash = hash(named.iter().flat_map(|cell| cell.to_le_bytes()));
    let clauses: Vec<String> = named.iter().take_while(|&&cell| cell >= 4).map(u16::to_string).collect();
    match clauses.len() {
        1..=CLAUSES_IN_FULL => format!("{hash:016x} {}", clauses.join(" ")),
        _ => format!("{hash:016x}"),
    }
}
