//! The command `yestrwyn`, over the proved library. What it prints beyond the proved verdicts, readouts and written files is not
//! proved, and its help says which is which. It is a library besides, so that a measurement can run its checking of many files with
//! another check.

#![forbid(unsafe_code)]
#![warn(missing_docs)]

pub mod checking;
pub mod failure;
pub mod input;
pub mod pool;
pub mod status;

mod arguments;
mod commands;
mod day;
mod days_needed;
mod json;
mod names;
mod output;
mod progress;
mod saving;
mod solver;

use std::ffi::OsString;

use failure::Failure;
use output::Output;
use status::Status;

/// Runs the command with the words after its name, and gives its exit status.
pub fn run(words: impl Iterator<Item = OsString>) -> Status {
    let mut output = Output::standard();
    let done = commands::run(words, &mut output);
    let written = output.finish();
    [done, written.map(|()| Status::Accepted)].into_iter().map(settled).max().unwrap_or(Status::Failed)
}

/// The exit status of something that was done, or that failed, which is said.
fn settled(result: Result<Status, Failure>) -> Status {
    result.unwrap_or_else(|failure| {
        failure.say();
        failure.status()
    })
}
