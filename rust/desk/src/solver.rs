//! A SAT solver, run on a problem in DIMACS.

use std::env;
use std::ffi::OsStr;
use std::io::{self, Write};
use std::process::{Command, Stdio};

use crate::failure::{shown, Failure};
use crate::input::cause;
use crate::saving::Temporary;

/// What a solver says.
#[derive(Clone, Copy, PartialEq, Eq, Debug)]
pub enum Answer {
    /// There is no model.
    None,
    /// There is one.
    Model,
}

/// The exit statuses by which solvers say so.
const NO_MODEL: i32 = 20;
const MODEL: i32 = 10;

/// Has a solver, named with its own words, read a problem from a file. What it says is in its exit status or in a line of its output.
pub fn solve(solver: &OsStr, problem: &str) -> Result<Answer, Failure> {
    let failed = |what: String| Failure::of(shown(solver), what);
    let words = solver.to_str().ok_or_else(|| failed("it is no text in UTF-8".to_string()))?;
    let mut words = words.split_whitespace();
    let program = words.next().ok_or_else(|| Failure::usage("--solver names a program"))?;
    let file =
        written(problem).map_err(|error| failed(format!("no file for the problem: {}", cause(&error))))?;
    let mut command = Command::new(program);
    command.args(words).arg(file.path()).stdin(Stdio::null()).stderr(Stdio::null());
    let output = command.output().map_err(|error| failed(format!("it is not run: {}", cause(&error))))?;
    let lines = output.stdout.split(|&byte| byte == b'\n').filter_map(line_says);
    let mut said = status_says(output.status.code()).into_iter().chain(lines);
    let Some(first) = said.next() else {
        return Err(failed(format!("it gives no answer: {}", output.status)));
    };
    match said.all(|other| other == first) {
        true => Ok(first),
        false => Err(failed("it says both that there is a model and that there is none".to_string())),
    }
}

/// What an exit status says.
fn status_says(status: Option<i32>) -> Option<Answer> {
    match status {
        Some(NO_MODEL) => Some(Answer::None),
        Some(MODEL) => Some(Answer::Model),
        _ => None,
    }
}

/// What a line of output says: `s UNSATISFIABLE`, as in the competitions of solvers, or the same without `s`.
fn line_says(line: &[u8]) -> Option<Answer> {
    let line = line.trim_ascii();
    match line.strip_prefix(b"s ").unwrap_or(line) {
        b"UNSATISFIABLE" => Some(Answer::None),
        b"SATISFIABLE" => Some(Answer::Model),
        _ => None,
    }
}

/// A file with a problem.
fn written(problem: &str) -> io::Result<Temporary> {
    let (mut file, temporary) = Temporary::make(&env::temp_dir())?;
    file.write_all(problem.as_bytes())?;
    Ok(temporary)
}
