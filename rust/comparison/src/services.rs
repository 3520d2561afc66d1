//! The check for services beside the second implementation: every number and cell, and the node table and the
//! table of origins that it leaves. One workspace serves all files and is never cleared.

use yestrwyn::exported::{check_numbers_with, Arrays};
use yestrwyn::Workspace;
use yestrwyn_types::limits::RECORD_BYTES;
use yestrwyn_types::ANSWER_CELLS;

use crate::compare::{differ, Difference, Lengths, Lent};

/// Cells of a row in the node table, and of a clause in the table of origins.
const PART: usize = 8;

/// What every cell of a dirty workspace holds.
pub const DIRT: u16 = 0xffff;

/// The names of the parts where a difference is shown.
const NAMES: [&str; 5] = [
    "answer for services",
    "symbols for services",
    "rows for services",
    "clauses for services",
    "bindings for services",
];

/// A workspace that has never been cleared.
pub fn dirty() -> Workspace {
    let mut workspace = Workspace::new();
    let Arrays { nodes, origins, values } = workspace.lend();
    nodes.fill(DIRT);
    origins.fill(DIRT);
    values.fill(DIRT);
    workspace
}

/// A workspace and the cells that are lent with it, kept between files.
pub struct Services {
    workspace: Workspace,
    lent: Lent,
}

impl Default for Services {
    fn default() -> Services {
        Services { workspace: dirty(), lent: Lent::default() }
    }
}

impl Services {
    /// Checks a file that the second implementation has checked on the same day, with tables of the same lengths and marks.
    pub fn compare(
        &mut self,
        day: u16,
        file: &[u8],
        lengths: Lengths,
        mark: u16,
        second: &Lent,
    ) -> Result<(), Difference> {
        let Services { workspace, lent } = self;
        lent.fill(lengths, mark);
        let mut arrays = workspace.lend();
        let before = [arrays.nodes.to_vec(), arrays.origins.to_vec()];
        let (mut tables, answer) = lent.tables();
        check_numbers_with(day, file, &mut tables, &mut arrays, answer);
        lent.differ(second, NAMES)?;
        let [nodes, origins] = expected(file, second, before);
        differ("nodes", arrays.nodes, &nodes)?;
        differ("origins", arrays.origins, &origins)
    }
}

/// The node table and the table of origins after a check, by the second implementation's tables.
fn expected(file: &[u8], second: &Lent, before: [Vec<u16>; 2]) -> [Vec<u16>; 2] {
    let Lent { tables: [_, rows, clauses, _], answer } = second;
    match answer.get(..ANSWER_CELLS) {
        None | Some([2, 1 | 2, ..]) => before,
        Some(answer) => {
            let (row_count, clause_count) = (usize::from(answer[4]), usize::from(answer[5]));
            let rows = &rows[..row_count];
            let clauses = clauses.iter().step_by(5).take(clause_count);
            let earliest = earliest_rows(file, rows);
            let cells = |record: &u16| cells_of(file, usize::from(*record), &earliest);
            let nodes = earliest.iter().zip(0u16..).zip(rows).flat_map(|((first, row), record)| {
                if *first == row {
                    cells(record)
                } else {
                    cells_of_repeat(*first)
                }
            });
            let mut parts: [Vec<u16>; 2] = [nodes.collect(), clauses.flat_map(cells).collect()];
            parts.iter_mut().zip(&before).for_each(|(part, before)| part.resize(before.len(), 0));
            parts
        }
    }
}

/// For each row the number of the earliest that equals it, whose record the row table holds.
fn earliest_rows(file: &[u8], rows: &[u16]) -> Vec<u16> {
    let records = file.chunks_exact(RECORD_BYTES).zip(0u16..);
    let own: Vec<u16> =
        records.filter(|(bytes, _)| matches!(bytes[0], 2 | 3)).map(|(_, record)| record).collect();
    rows.iter().map(|record| own.partition_point(|earlier| earlier < record) as u16).collect()
}

/// The eight cells of a row that repeats another: 0, and that row.
fn cells_of_repeat(first: u16) -> [u16; PART] {
    [0, first, 0, 0, 0, 0, 0, 0]
}

/// The eight cells of a row or a clause: what it is, and the seven fields of its record, in which each row is
/// replaced by the earliest that equals it.
fn cells_of(file: &[u8], record: usize, earliest: &[u16]) -> [u16; PART] {
    let bytes = &file[RECORD_BYTES * record..RECORD_BYTES * (record + 1)];
    let mut cells = [0; PART];
    for (cell, field) in cells.iter_mut().zip(bytes.chunks_exact(2)) {
        *cell = u16::from_le_bytes([field[0], field[1]]);
    }
    let count = usize::from(bytes[1]);
    let replaced = |row: u16| earliest[usize::from(row)];
    match bytes[0] {
        3 => cells[2..2 + count].iter_mut().for_each(|row| *row = replaced(*row)),
        4 => cells[1..=count].iter_mut().for_each(|code| *code = 2 * replaced(*code / 2) + *code % 2),
        _ => {}
    }
    cells[0] = match bytes[0] {
        // A variable; an application, by its arguments.
        2 => 1,
        3 => 2 + u16::from(bytes[1]),
        // An input clause; a factoring step; a resolution step, by its right literals.
        4 => 1,
        6 => 2,
        5 => 3,
        _ => 2 + u16::from(bytes[1]),
    };
    cells
}
