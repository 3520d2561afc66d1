//! The help.

use std::ffi::OsString;

use super::{find, Command, COMMANDS};
use crate::failure::Failure;
use crate::output::Output;
use crate::status::Status;

/// What the general help says before the list of subcommands, and after it.
const BEFORE: &str =
    "yestrwyn checks proof files by a proved library, and reads, explains and rewrites them.\n\n";
const AFTER: &str = "\
FILE is a proof file, and - is standard input. --names N names a file of names for the symbols, a line
each: 's3 departs'; what follows # is a comment. Names are only printed.

A day D is a number from 0 to 65535, a date from 1970-01-01, which is day 0, to 2149-06-06, or 'today' in
universal time. Nearly every system counts its days from that date, so that numbers agree without a table.
Without --day a file whose verdict is the same on every day is taken as it is; for others a day is asked for.

What is proved: verdicts with their clause, reason and record, counts, readouts, coverings, and the bytes
of merged, trimmed and converted files. Everything else that is printed is not; the help of a subcommand
says which is which.

Exit status: 0 accepted or done, 1 open, 2 refused, 3 a failure of reading or writing, or words that are
not understood; of several the highest. An error is a line on standard error with the name of the file.

    yestrwyn help SUBCOMMAND    says more of one
    yestrwyn --version          prints the version
";

/// Prints the general help, or that of a subcommand.
pub fn print(word: Option<OsString>, output: &mut Output) -> Result<Status, Failure> {
    let text = match word {
        Some(word) => of(find(&word)?),
        None => general(),
    };
    output.print(text)?;
    Ok(Status::Accepted)
}

/// Prints the version.
pub fn version(output: &mut Output) -> Result<Status, Failure> {
    output.print(concat!("yestrwyn ", env!("CARGO_PKG_VERSION"), "\n"))?;
    Ok(Status::Accepted)
}

/// The general help.
fn general() -> String {
    let line = |command: &&Command| {
        format!("    yestrwyn {} {}\n        {}\n", command.name, command.synopsis, command.summary)
    };
    format!("{BEFORE}{}\n{AFTER}", COMMANDS.iter().map(line).collect::<String>())
}

/// The help of a subcommand.
fn of(command: &Command) -> String {
    let Command { name, synopsis, summary, text, proved, not_proved, statuses, .. } = command;
    format!(
        "yestrwyn {name} {synopsis}\n\n{summary}\n\n{text}\nProved: {proved}\nNot proved: {not_proved}\n\n\
         Exit status: {statuses}\n"
    )
}
