//! `yestrwyn explain`: the verdict in words.

use yestrwyn_derivations::explain;

use super::options::named_file;
use super::Command;
use crate::arguments::{Arguments, Takes};
use crate::failure::Failure;
use crate::output::Output;
use crate::status::Status;

pub const COMMAND: Command = Command {
    name: "explain",
    synopsis: "[--day D] [--names N] FILE",
    summary: "The refused record in words: its bytes, what it names, the reason, and how to mend it.",
    text: "\
Of a step both literals are printed as they then were, and where they clash. Of a file that stands it says
why it is accepted, or what is missing.

    --day D        check on this day; asked for where the verdict can depend on it
    --names N      print names in the place of symbols
",
    proved: "the verdict, which is the first line.",
    not_proved: "everything after it: the record is looked at here once more.",
    statuses: "0 accepted, 1 open, 2 refused, 3 not read or written.",
    takes: Takes { flags: &[], values: &["--day", "--names"] },
    run,
};

fn run(arguments: &Arguments, output: &mut Output) -> Result<Status, Failure> {
    let (file, names) = named_file(arguments)?;
    output.print(explain(&file.model()?, &names, file.day))?;
    Ok(file.answer.verdict.into())
}
