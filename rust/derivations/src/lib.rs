//! A checked proof file as clauses with their derivations: what is to be said of it beyond the proved verdict.
//!
//! A [`Model`] is read from the bytes of a file and from the answer and the tables that a check of it left, so that what it starts from is
//! proved; its own work is tested and not proved. Of it are made the verdict in words ([`explain()`]), the rules that a proof uses
//! ([`rules()`]), drawings ([`dot()`], [`svg()`]), a page for the booking ([`report()`]), and the instances that cannot all be true as a
//! problem for SAT solvers ([`dimacs()`]). Terms are shared throughout: one of 2 to the 4,000 leaves fits into a file, and is never written
//! out beyond a stated limit.

#![forbid(unsafe_code)]
#![warn(missing_docs)]

mod dimacs;
mod draw;
mod escape;
mod explain;
mod fault;
mod instances;
mod model;
mod names;
mod outlines;
mod places;
mod report;
mod rules;
mod sha256;
mod steps;
mod terms;
mod text;
mod unification;
mod values;
mod variants;
mod wording;

pub use dimacs::dimacs;
pub use draw::{dot, svg, IN_FULL};
pub use explain::explain;
pub use fault::{find as find_fault, Ended, Fault, Missing};
pub use instances::{Instance, Instances};
pub use model::{Binding, Clause, Expression, Literal, Model, Node, Origin, Row, Symbol};
pub use names::{Names, NamesError, NamesFault};
pub use outlines::OutlineClash;
pub use report::{report, Booking};
pub use rules::{rules, used_rules, Rulebook, SymbolsDiffer, UsedRule};
pub use sha256::sha256;
pub use steps::{step_works, StepWork};
pub use terms::{Head, Term, Terms};
pub use text::{Printed, Printer};
pub use unification::Failure;
pub use values::Values;
