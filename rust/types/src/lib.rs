//! What a check of a proof file answers, the tables that it fills, the answers to whether one clause covers another, to a
//! merge of two files, to a conversion, to a trim and of a board, the two forms of a file, what a name of a symbol is, days as dates, and the
//! numbers of the format.
//!
//! The package `yestrwyn` (the proved check) gives all of these on, and `yestrwyn-builder` the limits, records and reasons;
//! there is no need to name this package beside them.

#![forbid(unsafe_code)]
#![warn(missing_docs)]

pub mod limits;
pub mod record;

mod answer;
mod board;
mod convert;
mod cover;
mod date;
mod form;
mod inputs;
mod merge;
mod name;
mod reason;
mod tables;
mod trim;

pub use answer::{Answer, Verdict, ANSWER_CELLS};
pub use board::{BoardAnswer, BoardRefusal, ClauseState, BOARD_ANSWER_CELLS};
pub use convert::{ConversionRefusal, Converted, CONVERTED_CELLS};
pub use cover::{Covering, Outcome, COVERING_CELLS};
pub use date::date;
pub use form::{Dated, Form};
pub use inputs::{input_clauses, input_clauses_form, InputClause};
pub use merge::{MergeRefusal, Merged, MERGED_CELLS};
pub use name::{test_name, NameError, NAME_CHARACTERS};
pub use reason::Reason;
pub use tables::{Cells, Tables, LENGTHS};
pub use trim::{TrimRefusal, Trimmed, TRIMMED_CELLS};
