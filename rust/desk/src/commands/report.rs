//! `yestrwyn report`: a page for the booking.

use yestrwyn_derivations::{report, Booking};

use super::options::named_file;
use super::Command;
use crate::arguments::{Arguments, Takes};
use crate::failure::Failure;
use crate::input::Source;
use crate::output::Output;
use crate::saving::Destination;
use crate::status::Status;

pub const COMMAND: Command = Command {
    name: "report",
    synopsis: "[--day D] [--names N] FILE -o PAGE.html",
    summary: "One page for the booking: verdict, rules used, clauses in names, the derivation as a picture.",
    text: "\
The page needs nothing else, on a screen or on paper, and names the file by its length and its SHA-256. An
open or refused file gets a page too, which says what is missing or wrong. The page is written whole or not
at all; -o - is standard output.

    --day D        check on this day; asked for where the verdict can depend on it
    --names N      print names in the place of symbols
",
    proved: "the verdict.",
    not_proved: "everything else on the page.",
    statuses: "0 accepted, 1 open, 2 refused, each with the page written; 3 not read or written.",
    takes: Takes { flags: &[], values: &["--day", "--names", "-o"] },
    run,
};

fn run(arguments: &Arguments, output: &mut Output) -> Result<Status, Failure> {
    let destination = Destination::of(arguments.value("-o"))?;
    let (file, names) = named_file(arguments)?;
    let names_from = arguments.value("--names").map(Source::of);
    let names_said = names_from.as_ref().map(Source::to_string);
    let booking = Booking { file: &file.source.to_string(), day: file.day, names: names_said.as_deref() };
    let page = report(&file.model()?, &names, &booking);
    let inputs: Vec<&Source> = [&file.source].into_iter().chain(&names_from).collect();
    destination.save(&inputs, page.as_bytes(), output)?;
    Ok(file.answer.verdict.into())
}
