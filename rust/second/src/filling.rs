//! The four lent tables, filled from what stands.

use yestrwyn_types::limits::{BINDING_CELLS, CLAUSE_CELLS, ROW_CELLS, SYMBOL_CELLS};
use yestrwyn_types::Tables;

use crate::checker::Checker;

/// Clears the named parts and writes what stands. Short tables are left alone.
pub fn fill(tables: &mut Tables<'_>, checker: &Checker) {
    let Some(Tables { symbols, rows, clauses, bindings }) = named(tables) else { return };
    write(symbols, checker.symbols().iter().map(|symbol| [symbol.record]));
    write(rows, checker.row_records().iter().map(|&record| [record]));
    write(
        clauses,
        checker.clauses().iter().map(|clause| {
            [clause.record, clause.literals, clause.max_index, clause.first_binding, clause.bindings]
        }),
    );
    write(
        bindings,
        checker.bindings().iter().map(|binding| {
            let (variable, value) = (binding.variable, binding.value);
            [variable.row, variable.index, value.row, value.index]
        }),
    );
}

/// The part of each table that a check clears and fills, if the tables are long enough.
fn named<'a>(tables: &'a mut Tables<'_>) -> Option<Tables<'a>> {
    Some(Tables {
        symbols: tables.symbols.get_mut(..SYMBOL_CELLS)?,
        rows: tables.rows.get_mut(..ROW_CELLS)?,
        clauses: tables.clauses.get_mut(..CLAUSE_CELLS)?,
        bindings: tables.bindings.get_mut(..BINDING_CELLS)?,
    })
}

/// Clears a table's named part, then writes entries of N cells each from its start.
fn write<const N: usize>(cells: &mut [u16], entries: impl Iterator<Item = [u16; N]>) {
    cells.fill(0);
    for (place, entry) in cells.chunks_exact_mut(N).zip(entries) {
        place.copy_from_slice(&entry);
    }
}
