//! Opens the board of a proof file on a day and withdraws or returns input clauses, one after another. The arguments are the day,
//! the file, and calls: `-3` withdraws clause 3, `+3` returns it. Prints the opening's answer, then one for each call.

use std::fs;
use std::io::{self, Write};

use yestrwyn::{Board, BoardAnswer};

fn main() -> io::Result<()> {
    let words: Vec<String> = std::env::args().skip(1).collect();
    let [day, name, calls @ ..] = words.as_slice() else { return Err(usage()) };
    let day = day.parse().map_err(|_| usage())?;
    for answer in answers(day, fs::read(name)?, calls)? {
        writeln!(io::stdout(), "{answer}")?;
    }
    Ok(())
}

fn usage() -> io::Error {
    io::Error::other("usage: board DAY FILE [-CLAUSE | +CLAUSE] .., with a day from 0 to 65535")
}

/// The answers: `none`, `clause N`, or `refused R at K`. A file that is refused has no board, and no further answer. An error is a
/// word that is no call, or the system's, where it gives no thread.
pub fn answers(day: u16, file: Vec<u8>, calls: &[String]) -> io::Result<Vec<BoardAnswer>> {
    let mut board = match Board::open(day, file)? {
        Ok(board) => board,
        Err(refusal) => return Ok(vec![BoardAnswer::Refused(refusal)]),
    };
    let mut answers = vec![BoardAnswer::Answered(board.answer())];
    for call in calls {
        let clause = call.get(1..).and_then(|word| word.parse().ok()).ok_or_else(usage)?;
        let result = match call.as_bytes()[0] {
            b'-' => board.withdraw(clause),
            b'+' => board.give_back(clause),
            _ => return Err(usage()),
        };
        answers.push(result.into());
    }
    Ok(answers)
}
