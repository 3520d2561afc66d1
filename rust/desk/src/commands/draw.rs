//! `yestrwyn draw`: the accepted derivation as a picture.

use yestrwyn_derivations::{dot, svg};

use super::options::named_file;
use super::Command;
use crate::arguments::{Arguments, Takes};
use crate::failure::Failure;
use crate::output::Output;
use crate::status::Status;

pub const COMMAND: Command = Command {
    name: "draw",
    synopsis: "[--day D] [--names N] [--svg] FILE",
    summary: "The accepted derivation as DOT, or as SVG of its own making.",
    text: "\
    --day D        check on this day; asked for where the verdict can depend on it
    --names N      print names in the place of symbols
    --svg          a drawing in SVG, in place of a text in DOT for Graphviz
",
    proved: "that the file is accepted with the clause that is drawn.",
    not_proved: "the drawing.",
    statuses: "0 drawn, 1 the file is open, 2 refused, 3 not read or written.",
    takes: Takes { flags: &["--svg"], values: &["--day", "--names"] },
    run,
};

fn run(arguments: &Arguments, output: &mut Output) -> Result<Status, Failure> {
    let (file, names) = named_file(arguments)?;
    let (model, clause) = file.accepted_model()?;
    let draw = if arguments.has("--svg") { svg } else { dot };
    output.print(draw(&model, &names, clause))?;
    Ok(Status::Accepted)
}
