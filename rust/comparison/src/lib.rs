//! The proved check, plain, for services and of either form, the two proved readouts, which clause covers which, the proved merge,
//! conversions, trims and boards, compared with the second implementation: every answer, every cell and every byte; and the time that they take.

pub mod boards;
pub mod clock;
pub mod compare;
pub mod covers;
pub mod files;
pub mod forms;
pub mod merges;
pub mod outputs;
pub mod pieces;
pub mod questions;
pub mod rounds;
pub mod services;
pub mod trims;

pub use compare::{compare, Difference, Lengths};
