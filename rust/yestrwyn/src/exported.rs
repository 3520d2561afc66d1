//! The functions of the static library as they are exported: answer and progress in numbers.
//!
//! All run on the caller's stack; [`check_here`](crate::check_here) says how much it must have.

mod board;
mod check;
mod convert;
mod covers;
mod form;
mod merge;
mod readout;
mod services;
mod trim;

pub use board::{board_open_numbers, board_return_numbers, board_withdraw_numbers};
pub use check::check_numbers;
pub use convert::{to_new_numbers, to_old_numbers};
pub use covers::covers_numbers;
pub use form::check_form_numbers;
pub use merge::merge_numbers;
pub use readout::{canonical_readout_numbers, readout_numbers, ReadoutNumbers, PROGRESS_CELLS};
pub use services::{check_numbers_with, Arrays, Nodes, Origins, Values};
pub use trim::trim_numbers;
