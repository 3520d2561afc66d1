//! Every number that the format fixes, in one place.

/// Bytes of one record.
pub const RECORD_BYTES: usize = 16;
/// Records that a file may hold.
pub const RECORDS: usize = 4096;
/// Bytes that a file may hold.
pub const FILE_BYTES: usize = RECORDS * RECORD_BYTES;

/// Bytes of one record of the new form.
pub const NEW_RECORD_BYTES: usize = 20;
/// Records that a file of the new form may hold: as many as have room in 65,536 bytes.
pub const NEW_RECORDS: usize = FILE_BYTES / NEW_RECORD_BYTES;
/// Bytes that a file of the new form may hold.
pub const NEW_FILE_BYTES: usize = NEW_RECORDS * NEW_RECORD_BYTES;

/// Largest arity of a symbol, and most arguments of an application.
pub const ARITY: u8 = 6;
/// Variable numbers run from 0 to one below this.
pub const VARIABLES: usize = 64;
/// Most literals of an input clause.
pub const INPUT_LITERALS: u8 = 7;
/// Most right literals that one step can resolve with a left one.
pub const RIGHT_LITERALS: u8 = 4;
/// Most literals of a derived clause.
pub const LITERALS: u16 = 128;
/// Largest maximum index of a clause.
pub const INDEX: u16 = 4096;
/// Pairs of rows that the comparison of two outlines takes up before it ends without a clash.
pub const OUTLINE_PAIRS: usize = 4096;
/// Work that one step may do.
pub const WORK: u32 = 16_384;
/// Bindings that all clauses of a file may hold together.
pub const BINDINGS: usize = 8192;

/// Cells of the symbol table that are used.
pub const SYMBOL_CELLS: usize = RECORDS;
/// Cells of the row table that are used.
pub const ROW_CELLS: usize = RECORDS;
/// Cells of the clause table that are used, five for each clause.
pub const CLAUSE_CELLS: usize = 5 * RECORDS;
/// Cells of the binding table that are used, four for each binding.
pub const BINDING_CELLS: usize = 4 * BINDINGS;
/// Cells of a board that are used: one for each clause that a file can have, and the day.
pub const BOARD_CELLS: usize = RECORDS + 1;

/// A literal with more variable and symbol occurrences than this is read out as `~`.
pub const READOUT_OCCURRENCES: usize = 64;
