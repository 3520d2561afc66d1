//! The readout of a file: the verdict, and every clause in plain symbols; and the second one, in which the variables of each
//! clause are numbered from 0 by first appearance.

use std::io::{self, Write};

use yestrwyn_types::{Cells, Tables};

use crate::exported::{canonical_readout_numbers, readout_numbers, ReadoutNumbers, PROGRESS_CELLS};
use crate::stack::with_stack;

/// Room that every line has: no piece with so much room is too short.
pub const ENOUGH: usize = 131_072;

/// The room of a piece where the caller lends none. Each piece checks the file anew, so that larger ones
/// take less time; most readouts fit in one.
const ROOM: usize = 16 << 20;

/// What comes after a piece.
#[derive(Clone, Copy, PartialEq, Eq, Debug)]
pub enum Rest {
    /// All is written.
    Complete,
    /// The next piece begins with this clause.
    GoOn(u16),
    /// The output is too short for the line of this clause, with which the piece was to begin.
    TooShort(u16),
}

/// How many bytes were written, and what comes after them.
#[derive(Clone, Copy, PartialEq, Eq, Debug)]
pub struct Piece {
    /// Bytes of the output that were written.
    pub written: usize,
    /// What comes after them.
    pub rest: Rest,
}

/// The whole readout, made on a thread of its own with stack enough for every file. Its first line goes by the day.
pub fn readout(day: u16, file: &[u8]) -> io::Result<Vec<u8>> {
    whole(readout_numbers, day, file)
}

/// The whole second readout, made as [`readout`] makes the first. It is like that in every byte but for variables: in each
/// line they are `v0`, `v1` and so on, without index, by first appearance; what `~` hides takes no number. Clauses with the
/// same literals in the same order, up to a one-to-one renaming of variables, print the same literals, and those that print the
/// same without `~` are so related.
pub fn canonical_readout(day: u16, file: &[u8]) -> io::Result<Vec<u8>> {
    whole(canonical_readout_numbers, day, file)
}

/// The readout, written piece by piece. If it ends with an error, what was written is not the readout.
pub fn write_readout(day: u16, file: &[u8], out: &mut (impl Write + Send)) -> io::Result<()> {
    write(readout_numbers, day, file, out)
}

/// The second readout, written as [`write_readout`] writes the first.
pub fn write_canonical_readout(day: u16, file: &[u8], out: &mut (impl Write + Send)) -> io::Result<()> {
    write(canonical_readout_numbers, day, file, out)
}

/// The same as [`write_readout`] on the caller's own stack, of which 8 MiB must be left ([`check_here`](crate::check_here)
/// says why), with tables and an output that the caller lends for the pieces. An output that is too short
/// for a line is an error: a readout is written whole or not called one. [`ENOUGH`] bytes have room for
/// every line.
pub fn write_readout_here(
    day: u16,
    file: &[u8],
    tables: &mut Tables<'_>,
    output: &mut [u8],
    out: &mut impl Write,
) -> io::Result<()> {
    write_here(readout_numbers, day, file, tables, output, out)
}

/// The second readout, written as [`write_readout_here`] writes the first.
pub fn write_canonical_readout_here(
    day: u16,
    file: &[u8],
    tables: &mut Tables<'_>,
    output: &mut [u8],
    out: &mut impl Write,
) -> io::Result<()> {
    write_here(canonical_readout_numbers, day, file, tables, output, out)
}

/// Checks a file on a day and writes as many whole lines of its readout as fit, from a clause on; from clause 0
/// with the first line before them. Runs on a thread of its own with stack enough for every file.
pub fn readout_piece(
    day: u16,
    file: &[u8],
    tables: &mut Tables<'_>,
    clause: u16,
    output: &mut [u8],
) -> io::Result<Piece> {
    with_stack(|| readout_piece_here(day, file, tables, clause, output))
}

/// The same for the second readout.
pub fn canonical_readout_piece(
    day: u16,
    file: &[u8],
    tables: &mut Tables<'_>,
    clause: u16,
    output: &mut [u8],
) -> io::Result<Piece> {
    with_stack(|| canonical_readout_piece_here(day, file, tables, clause, output))
}

/// The same as [`readout_piece`] on the caller's own stack, of which 8 MiB must be left:
/// [`check_here`](crate::check_here) says why.
pub fn readout_piece_here(
    day: u16,
    file: &[u8],
    tables: &mut Tables<'_>,
    clause: u16,
    output: &mut [u8],
) -> Piece {
    piece(readout_numbers, day, file, tables, clause, output)
}

/// The same for the second readout.
pub fn canonical_readout_piece_here(
    day: u16,
    file: &[u8],
    tables: &mut Tables<'_>,
    clause: u16,
    output: &mut [u8],
) -> Piece {
    piece(canonical_readout_numbers, day, file, tables, clause, output)
}

/// A readout as a whole.
fn whole(numbers: ReadoutNumbers, day: u16, file: &[u8]) -> io::Result<Vec<u8>> {
    let mut text = Vec::new();
    write(numbers, day, file, &mut text)?;
    Ok(text)
}

/// A readout, written on a thread of its own.
fn write(numbers: ReadoutNumbers, day: u16, file: &[u8], out: &mut (impl Write + Send)) -> io::Result<()> {
    let (mut cells, mut output) = (Cells::new(), vec![0; ROOM]);
    with_stack(|| write_here(numbers, day, file, &mut cells.lend(), &mut output, out))?
}

/// A readout, written with what is lent for the pieces.
fn write_here(
    numbers: ReadoutNumbers,
    day: u16,
    file: &[u8],
    tables: &mut Tables<'_>,
    output: &mut [u8],
    out: &mut impl Write,
) -> io::Result<()> {
    let mut clause = 0;
    loop {
        let piece = piece(numbers, day, file, tables, clause, output);
        out.write_all(&output[..piece.written])?;
        match piece.rest {
            Rest::Complete => return Ok(()),
            Rest::GoOn(next) => clause = next,
            Rest::TooShort(clause) => return Err(cut(clause, output.len())),
        }
    }
}

/// A piece of a readout, with its numbers turned into values.
fn piece(
    numbers: ReadoutNumbers,
    day: u16,
    file: &[u8],
    tables: &mut Tables<'_>,
    clause: u16,
    output: &mut [u8],
) -> Piece {
    let mut progress = [0; PROGRESS_CELLS];
    numbers(day, file, tables, clause, output, &mut progress);
    let [kind, written, next] = progress;
    let next = next as u16;
    let rest = match kind {
        0 => Rest::Complete,
        1 => Rest::GoOn(next),
        _ => Rest::TooShort(next),
    };
    Piece { written: written as usize, rest }
}

/// The error of a readout that would be cut before a clause.
fn cut(clause: u16, room: usize) -> io::Error {
    io::Error::other(format!(
        "the readout is cut: {room} bytes are too short for the line of clause {clause}"
    ))
}
