//! Pieces of the two proved readouts beside the second implementation's: every byte, every number and
//! every cell.

use yestrwyn::exported::{canonical_readout_numbers, readout_numbers, ReadoutNumbers, PROGRESS_CELLS};
use yestrwyn::ENOUGH;
use yestrwyn_types::Tables;
use yestrwyn_vectors::random::SplitMix64;

use crate::compare::Lengths;

/// What the output and the progress hold before a call.
const OUTPUT_MARK: u8 = 0xa5;
const PROGRESS_MARK: u64 = 7;

/// Pieces that a walk through a readout takes at most.
const TURNS: usize = 40;

/// One of the two readouts: the proved one as it is exported, and the second implementation's.
#[derive(Clone, Copy)]
pub struct Readout {
    pub name: &'static str,
    pub proved: ReadoutNumbers,
    pub second: fn(u16, &[u8], &mut Tables<'_>) -> Vec<u8>,
}

/// Both of them.
pub const READOUTS: [Readout; 2] = [
    Readout { name: "readout", proved: readout_numbers, second: yestrwyn_second::readout_into },
    Readout {
        name: "second readout",
        proved: canonical_readout_numbers,
        second: yestrwyn_second::canonical_readout_into,
    },
];

/// What a call is asked for: the clause to begin with, bytes of output and cells for the progress.
#[derive(Clone, Copy, PartialEq, Eq, Debug)]
pub struct Asked {
    pub clause: u16,
    pub room: usize,
    pub cells: usize,
}

/// What a piece can begin with: the line of each clause, with the first line before that of clause 0.
pub fn units(text: &[u8]) -> Vec<&[u8]> {
    let mut lines: Vec<&[u8]> = text.split_inclusive(|&byte| byte == b'\n').collect();
    if lines.len() > 1 {
        let first = lines[0].len() + lines[1].len();
        lines.remove(0);
        lines[0] = &text[..first];
    }
    lines
}

/// The bytes and the three numbers of a piece, by its description.
pub fn expected(units: &[&[u8]], clause: u16, room: usize) -> (Vec<u8>, [u64; PROGRESS_CELLS]) {
    let start = usize::from(clause).min(units.len());
    let mut bytes = Vec::new();
    let mut next = start;
    while next < units.len() && bytes.len() + units[next].len() <= room {
        bytes.extend_from_slice(units[next]);
        next += 1;
    }
    let written = bytes.len() as u64;
    let numbers = match next {
        _ if next == units.len() => [0, written, 0],
        _ if next == start => [2, 0, u64::from(clause)],
        _ => [1, written, next as u64],
    };
    (bytes, numbers)
}

/// A file with its day and the tables that it is checked with, and what the second implementation makes of it.
pub struct Second<'a> {
    readout: Readout,
    day: u16,
    file: &'a [u8],
    lengths: Lengths,
    mark: u16,
    text: Vec<u8>,
    tables: [Vec<u16>; 4],
}

impl<'a> Second<'a> {
    /// Runs the second implementation.
    pub fn new(readout: Readout, day: u16, file: &'a [u8], lengths: Lengths, mark: u16) -> Second<'a> {
        let mut tables = lengths.tables.map(|length| marked(length, mark));
        let [symbols, rows, clauses, bindings] = &mut tables;
        let text = (readout.second)(day, file, &mut Tables { symbols, rows, clauses, bindings });
        Second { readout, day, file, lengths, mark, text, tables }
    }

    /// Goes through the readout in pieces of any room, and begins once anywhere; says where the two
    /// differ.
    pub fn walk(&self, random: &mut SplitMix64) -> Result<(), String> {
        let units = units(&self.text);
        let mut clause = 0;
        for _ in 0..TURNS {
            let room = some_room(random, &units, clause);
            clause = match self.piece(&units, Asked { clause, room, cells: 4 })? {
                [1, _, next] => next as u16,
                [2, ..] => clause + 1,
                _ => break,
            };
        }
        self.anywhere(&units, random)
    }

    /// Pieces of every length: from every clause on with all rooms up to that of the whole and a byte more.
    pub fn every(&self) -> Result<(), String> {
        let units = units(&self.text);
        for clause in 0..units.len() as u16 + 2 {
            for room in 0..self.text.len() + 2 {
                self.piece(&units, Asked { clause, room, cells: 3 })?;
            }
        }
        Ok(())
    }

    /// Two pieces only: the first with room for every line, and one from anywhere.
    pub fn two(&self, random: &mut SplitMix64) -> Result<(), String> {
        let units = units(&self.text);
        self.piece(&units, Asked { clause: 0, room: ENOUGH, cells: 3 })?;
        self.anywhere(&units, random)
    }

    /// A piece from any clause, also past the last, at times with too few cells for the progress.
    fn anywhere(&self, units: &[&[u8]], random: &mut SplitMix64) -> Result<(), String> {
        let clause = random.below(units.len() + 3) as u16;
        let room = some_room(random, units, clause);
        let cells = if random.one_in(16) { random.below(PROGRESS_CELLS) } else { random.between(3, 5) };
        self.piece(units, Asked { clause, room, cells }).map(|_| ())
    }

    /// One piece: its numbers, if nothing differs.
    fn piece(&self, units: &[&[u8]], asked: Asked) -> Result<[u64; PROGRESS_CELLS], String> {
        let mut ours = self.lengths.tables.map(|length| marked(length, self.mark));
        let [symbols, rows, clauses, bindings] = &mut ours;
        let mut tables = Tables { symbols, rows, clauses, bindings };
        let mut output = vec![OUTPUT_MARK; asked.room];
        let mut progress = vec![PROGRESS_MARK; asked.cells];
        (self.readout.proved)(self.day, self.file, &mut tables, asked.clause, &mut output, &mut progress);
        let (mut bytes, numbers) = expected(units, asked.clause, asked.room);
        let mut cells = vec![PROGRESS_MARK; asked.cells];
        match cells.get_mut(..PROGRESS_CELLS) {
            Some(first) => {
                first.copy_from_slice(&numbers);
                self.differ(asked, "table", ours == self.tables)?;
            }
            None => {
                bytes.clear();
                let left = ours.iter().all(|table| *table == marked(table.len(), self.mark));
                self.differ(asked, "table", left)?;
            }
        }
        bytes.resize(asked.room, OUTPUT_MARK);
        self.differ(asked, "progress", progress == cells)?;
        self.differ(asked, "output", output == bytes)?;
        Ok(numbers)
    }

    /// An error if something is not the same.
    fn differ(&self, asked: Asked, part: &str, same: bool) -> Result<(), String> {
        if same {
            return Ok(());
        }
        Err(format!("{}, {asked:?}: {part} differs", self.readout.name))
    }
}

/// Room for some of the next lines: just enough, one byte less, some more, or any.
fn some_room(random: &mut SplitMix64, units: &[&[u8]], clause: u16) -> usize {
    let rest = units.get(usize::from(clause)..).unwrap_or(&[]);
    let lines = random.below(rest.len().min(8) + 1);
    let exact: usize = rest[..lines].iter().map(|unit| unit.len()).sum();
    match random.below(4) {
        0 => exact,
        1 => exact.saturating_sub(1),
        2 => exact + random.below(200),
        _ => random.below(5000),
    }
}

/// Cells that each hold a mark of their own, so that a cell moved or cleared is seen.
fn marked(length: usize, mark: u16) -> Vec<u16> {
    (0..length).map(|cell| mark.wrapping_add(cell as u16)).collect()
}
