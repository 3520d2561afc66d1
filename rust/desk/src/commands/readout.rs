//! `yestrwyn readout`: the proved readout.

use std::io::Write;

use super::options::named_file;
use super::Command;
use crate::arguments::{Arguments, Takes};
use crate::checking::CheckedFile;
use crate::failure::Failure;
use crate::input::Source;
use crate::names::Naming;
use crate::output::{failure, Output};
use crate::status::Status;

pub const COMMAND: Command = Command {
    name: "readout",
    synopsis: "[--day D] [--names N] [--canonical] FILE",
    summary: "The readout: the verdict, and every clause in plain symbols.",
    text: "\
    --day D        check on this day; asked for where the verdict can depend on it
    --names N      print names in the place of symbols, and say so in a last line that begins with #
    --canonical    number the variables of each line by first appearance, so that rules with the same literals in
                   the same order print the same literals, whichever planner wrote them
",
    proved: "the whole readout, where no names are given.",
    not_proved: "names, and that they are put in the right places.",
    statuses: "0 accepted, 1 open, 2 refused, 3 not read or written.",
    takes: Takes { flags: &["--canonical"], values: &["--day", "--names"] },
    run,
};

fn run(arguments: &Arguments, output: &mut Output) -> Result<Status, Failure> {
    let (checked, names) = named_file(arguments)?;
    let canonical = arguments.has("--canonical");
    match arguments.value("--names").map(Source::of) {
        None => write(&checked, canonical, output)?,
        Some(named_by) => {
            write(&checked, canonical, &mut Naming::new(&names, &mut *output))?;
            output.print(format!(
                "# Symbols are printed by the names in {named_by}, which are not proved.\n"
            ))?;
        }
    }
    Ok(checked.answer.verdict.into())
}

/// Writes a readout piece by piece.
fn write(checked: &CheckedFile, canonical: bool, out: &mut (impl Write + Send)) -> Result<(), Failure> {
    let write = match canonical {
        true => yestrwyn::write_canonical_readout(checked.any_day(), &checked.bytes, out),
        false => yestrwyn::write_readout(checked.any_day(), &checked.bytes, out),
    };
    write.map_err(|error| failure(&error))
}
