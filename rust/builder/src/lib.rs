//! Builders of proof files, for authors of planners.
//!
//! [`FileBuilder`] writes a file record by record. Symbols, rows, clauses and literals are handles of
//! types of their own; a term is made once, tested for its arity, and named by its handle from then on:
//!
//! ```
//! use yestrwyn_builder::{neg, pos, BuildError, FileBuilder};
//!
//! let mut file = FileBuilder::new();
//! let even = file.symbol(1)?;
//! let next = file.symbol(1)?;
//! let zero = file.symbol(0)?;
//!
//! let zero = file.constant(zero)?;
//! let even_zero = file.apply(even, &[zero])?;
//! let start = file.clause(&[pos(even_zero)])?;
//!
//! let x = file.variable(0)?;
//! let even_x = file.apply(even, &[x])?;
//! let x_and_one = file.apply(next, &[x])?;
//! let x_and_two = file.apply(next, &[x_and_one])?;
//! let even_x_and_two = file.apply(even, &[x_and_two])?;
//! let rule = file.clause(&[neg(even_x), pos(even_x_and_two)])?;
//!
//! let one = file.apply(next, &[zero])?;
//! let two = file.apply(next, &[one])?;
//! let even_two = file.apply(even, &[two])?;
//! let goal = file.clause(&[neg(even_two)])?;
//!
//! let derived = file.resolve(start.literal(1), rule.literal(1))?; // +even(next(next(zero)))
//! let empty = file.resolve(derived.literal(1), goal.literal(1))?; // no literals: the goal is refuted
//! assert_eq!(empty.number(), 4);
//! assert_eq!(file.finish().len() % 16, 0);
//! # Ok::<(), BuildError>(())
//! ```
//!
//! [`RunningBuilder`] does the same and runs each step as it is added: it returns the literals of the
//! new clause, or why the step is refused.
//!
//! Both can go on from a file that is there already ([`FileBuilder::from_bytes`], [`RunningBuilder::from_bytes`]): a planner
//! that is handed a rulebook and a trip merged into one file appends its steps to that.
//!
//! Both write files of the old form unless they are told otherwise ([`FileBuilder::with_form`]). In the new form, of 20 bytes a
//! record, the days of an input clause stand beside it.
//!
//! A file has numbers for its symbols and no names. [`FileBuilder::named`] gives them names all the same, and [`FileBuilder::names`] is
//! the text with which the command `yestrwyn` prints them.
//!
//! Neither is proved, and neither need be trusted: whether a file is a proof is the check's to say.

#![forbid(unsafe_code)]
#![warn(missing_docs)]

mod days;
mod derivation;
mod environment;
mod error;
mod file;
mod handles;
mod outline;
mod reading;
mod running;
mod standing;
mod unification;

pub use error::{BuildError, ReadError};
pub use file::FileBuilder;
pub use handles::{neg, pos, Clause, Literal, Row, Signed, Symbol};
pub use running::RunningBuilder;
pub use standing::{Derived, Expression, Standing, Value};
pub use yestrwyn_types::{limits, record, test_name, Form, NameError, Reason};
