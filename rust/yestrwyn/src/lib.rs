//! The proved check and readouts of resolution proof files, which of their clauses covers which, two files merged into one, files
//! converted between their two forms, files trimmed to what their accepted clause uses, and boards, on which input clauses are
//! withdrawn and returned.
//!
//! ```no_run
//! let file = std::fs::read("trip.proof")?;
//! let day = 21_000; // 1 July 2027, where day 0 is 1 January 1970
//! let answer = yestrwyn::check(day, &file)?;
//! println!("{}", answer.verdict); // accepted N, open, or refused R at K
//! # std::io::Result::Ok(())
//! ```
//!
//! The functions behind these are written in Rattle and proved: they come to an end on every file,
//! stay inside what they are lent, and give the verdict that the format's description says. This
//! package hands slices to them and turns numbers into values; it is not proved, and it is the only
//! one of this folder that calls them.
//!
//! Check and readouts take a day: rules that a file gives a first and a last day are in force between these, and
//! only a proof from rules in force is accepted.
//!
//! [`canonical_readout()`] is the readout with the variables of each line numbered by first appearance, so that clauses
//! with the same literals in the same order, over the same symbols, print the same literals whichever planner wrote them.
//!
//! A file has one of two forms ([`Form`]): in the new one the days of a rule stand beside it. [`check_form()`] checks a file of
//! either, [`to_new()`] and [`to_old()`] convert one, and everything else takes the old form.
//!
//! [`trim()`] writes of a file that is accepted on a day what the accepted clause uses: what an archive keeps of a declined quote.
//!
//! [`check()`], the readouts, [`covers()`], [`merge()`], the conversions and [`trim()`] take care of the stack themselves. Functions that end in
//! `_here` run on the caller's, and say how much of it they need. A service that checks many files keeps a
//! [`Workspace`]; one that follows which rules are lifted and restored keeps a [`Board`].

#![warn(missing_docs)]

pub mod exported;

mod board;
mod check;
mod convert;
mod cover;
mod form;
mod merge;
mod readout;
mod stack;
mod trim;
mod workspace;

pub use board::Board;
pub use check::{check, check_here, check_into};
pub use convert::{to_new, to_new_here, to_new_into, to_old, to_old_here, to_old_into};
pub use cover::{covers, covers_here, covers_into};
pub use form::{check_form, check_form_here, check_form_into};
pub use merge::{merge, merge_here, merge_into};
pub use readout::{
    canonical_readout, canonical_readout_piece, canonical_readout_piece_here, write_canonical_readout,
    write_canonical_readout_here,
};
pub use readout::{
    readout, readout_piece, readout_piece_here, write_readout, write_readout_here, Piece, Rest, ENOUGH,
};
pub use stack::{with_stack, STACK};
pub use trim::{trim, trim_here, trim_into};
pub use workspace::Workspace;
pub use yestrwyn_types::{date, input_clauses, input_clauses_form, limits, record, test_name};
pub use yestrwyn_types::{
    Answer, BoardAnswer, BoardRefusal, Cells, ClauseState, ConversionRefusal, Converted, Covering, Dated,
    Form, InputClause, MergeRefusal, Merged, NameError, Outcome, Reason, Tables, TrimRefusal, Trimmed,
    Verdict,
};
pub use yestrwyn_types::{
    ANSWER_CELLS, BOARD_ANSWER_CELLS, CONVERTED_CELLS, COVERING_CELLS, LENGTHS, MERGED_CELLS,
    NAME_CHARACTERS, TRIMMED_CELLS,
};
