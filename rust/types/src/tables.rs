//! The four tables of 16-bit cells that a check fills: lent as slices, or owned.

use crate::limits::{BINDING_CELLS, CLAUSE_CELLS, ROW_CELLS, SYMBOL_CELLS};

/// The tables that a caller lends. Cells past the least lengths are never touched.
pub struct Tables<'a> {
    /// For each symbol its record; at least 4,096 cells.
    pub symbols: &'a mut [u16],
    /// For each row its record, or that of the earliest row that equals it; at least 4,096 cells.
    pub rows: &'a mut [u16],
    /// For each clause its record, number of literals, maximum index, first binding and number of
    /// bindings; at least 20,480 cells.
    pub clauses: &'a mut [u16],
    /// For each binding row and index of the variable, row and index of its value; at least 32,768
    /// cells.
    pub bindings: &'a mut [u16],
}

impl Tables<'_> {
    /// Are all four at least as long as they must be?
    pub fn long_enough(&self) -> bool {
        let Tables { symbols, rows, clauses, bindings } = self;
        let lengths = [symbols.len(), rows.len(), clauses.len(), bindings.len()];
        lengths.iter().zip(LENGTHS).all(|(&length, least)| length >= least)
    }
}

/// The least lengths of the four tables: symbols, rows, clauses, bindings.
pub const LENGTHS: [usize; 4] = [SYMBOL_CELLS, ROW_CELLS, CLAUSE_CELLS, BINDING_CELLS];

/// Four tables of their own, just long enough. Kept between files they are made only once.
#[derive(Clone, PartialEq, Eq, Debug)]
pub struct Cells {
    /// For each symbol its record.
    pub symbols: Vec<u16>,
    /// For each row its record, or that of the earliest row that equals it.
    pub rows: Vec<u16>,
    /// For each clause five cells.
    pub clauses: Vec<u16>,
    /// For each binding four cells.
    pub bindings: Vec<u16>,
}

impl Cells {
    /// Tables of zeros.
    pub fn new() -> Cells {
        let [symbols, rows, clauses, bindings] = LENGTHS.map(|length| vec![0; length]);
        Cells { symbols, rows, clauses, bindings }
    }

    /// The tables, to be lent to a check.
    pub fn lend(&mut self) -> Tables<'_> {
        let Cells { symbols, rows, clauses, bindings } = self;
        Tables { symbols, rows, clauses, bindings }
    }
}

impl Default for Cells {
    fn default() -> Cells {
        Cells::new()
    }
}
