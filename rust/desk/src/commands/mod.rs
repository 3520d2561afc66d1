//! The subcommands.

mod audit;
mod check;
mod convert;
mod covers;
mod draw;
mod explain;
mod from_spass;
mod help;
mod merge;
mod options;
mod readout;
mod report;
mod rules;
mod stats;
mod trim;

use std::ffi::OsString;

use crate::arguments::{Arguments, Takes};
use crate::failure::{shown, Failure};
use crate::output::Output;
use crate::status::Status;

/// A subcommand. Its help has a part for each of the texts, so that none can leave out what is proved.
pub struct Command {
    /// Its name.
    name: &'static str,
    /// The words that it takes.
    synopsis: &'static str,
    /// What it does, in a line.
    summary: &'static str,
    /// The same at length, with its options.
    text: &'static str,
    /// What of its output is proved.
    proved: &'static str,
    /// What of its output is not.
    not_proved: &'static str,
    /// What its exit status says.
    statuses: &'static str,
    /// The options that it takes.
    takes: Takes,
    /// What it does.
    run: fn(&Arguments, &mut Output) -> Result<Status, Failure>,
}

/// All of them, in the order of the help.
const COMMANDS: [&Command; 13] = [
    &check::COMMAND,
    &readout::COMMAND,
    &report::COMMAND,
    &explain::COMMAND,
    &rules::COMMAND,
    &draw::COMMAND,
    &stats::COMMAND,
    &audit::COMMAND,
    &covers::COMMAND,
    &merge::COMMAND,
    &trim::COMMAND,
    &convert::COMMAND,
    &from_spass::COMMAND,
];

/// Runs what the words after the command's name ask for.
pub fn run(mut words: impl Iterator<Item = OsString>, output: &mut Output) -> Result<Status, Failure> {
    let Some(word) = words.next() else {
        return Err(Failure::usage("a subcommand is wanted: 'yestrwyn help' lists them"));
    };
    match word.to_str() {
        Some("help" | "--help" | "-h") => help::print(words.next(), output),
        Some("--version" | "-V") => help::version(output),
        _ => {
            let command = find(&word)?;
            let words: Vec<OsString> = words.collect();
            match wants_help(&words) {
                true => help::print(Some(word), output),
                false => called(command, words, output),
            }
        }
    }
}

/// The subcommand of a name.
fn find(word: &OsString) -> Result<&'static Command, Failure> {
    let command = COMMANDS.into_iter().find(|command| word == command.name);
    let unknown = || format!("unknown subcommand '{}': 'yestrwyn help' lists them", shown(word));
    command.ok_or_else(|| Failure::usage(unknown()))
}

/// Is help among the options?
fn wants_help(words: &[OsString]) -> bool {
    words.iter().take_while(|word| *word != "--").any(|word| word == "--help" || word == "-h")
}

/// Runs a subcommand. Where it is not called as it must be, the way to its help is shown.
fn called(command: &Command, words: Vec<OsString>, output: &mut Output) -> Result<Status, Failure> {
    let arguments = Arguments::read(command.takes, words);
    arguments.and_then(|arguments| (command.run)(&arguments, output)).map_err(|failure| {
        match failure.is_usage() {
            true => Failure::usage(format_args!("{failure}: see 'yestrwyn help {}'", command.name)),
            false => failure,
        }
    })
}
