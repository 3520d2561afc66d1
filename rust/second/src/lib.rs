//! A second checker of resolution proof files, beside the proved one and unproved itself.
//!
//! A file holds symbols, rows (shared terms), input clauses, and resolution and factoring steps.
//! [`check()`] answers whether every record stands and whether some clause is empty that is made of
//! rules in force on a day, and fills four tables; [`readout()`] writes every clause in plain symbols, and
//! [`canonical_readout()`] does with the variables of each line numbered by first appearance; [`covers()`] answers
//! whether one input clause covers another; [`merge()`] makes one file of two; [`to_new()`] and [`to_old()`] write a file of one
//! form in the other, and [`check_form()`] checks a file of either; [`trim()`] writes of a file what its accepted clause uses; [`board`] says which empty clause stands
//! while input clauses are withdrawn and returned. Derived clauses are never written out: a clause is its parents and the
//! bindings that its own unification added.

#![forbid(unsafe_code)]

pub mod board;
pub mod check;
pub mod checker;
pub mod clause;
pub mod convert;
pub mod cover;
pub mod days;
pub mod earliest;
pub mod environment;
pub mod expression;
pub mod filling;
pub mod merge;
pub mod naming;
pub mod outline;
pub mod program;
pub mod readout;
pub mod trim;
pub mod unify;

pub use check::{check, check_counting, check_form, check_form_into, check_into, StepWork};
pub use convert::{to_new, to_new_into, to_old, to_old_into};
pub use cover::{covers, covers_into};
pub use merge::{merge, merge_into};
pub use readout::{canonical_readout, canonical_readout_into, write_canonical_readout};
pub use readout::{readout, readout_into, write_readout};
pub use trim::{trim, trim_into};
