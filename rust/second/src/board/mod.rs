//! Withdrawn notices: which input clauses of a checked file are present, and the lowest empty clause that then stands.
//!
//! There are two ways to it, which tests compare. [`Afresh`] keeps no board: it works every answer out anew, from the records of
//! the file and the clauses that are present. The functions of [`cells`] are on a board of cells that is lent to them, and
//! have an answer for whatever cells, file and table of clauses they are lent.

pub mod afresh;
pub mod cells;

pub use afresh::Afresh;
