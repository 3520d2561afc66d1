//! `yestrwyn merge`: a rulebook and a trip's facts in one file.

use yestrwyn::MergeRefusal;

use super::Command;
use crate::arguments::{Arguments, Takes};
use crate::failure::Failure;
use crate::input::Source;
use crate::output::Output;
use crate::saving::Destination;
use crate::status::Status;

pub const COMMAND: Command = Command {
    name: "merge",
    synopsis: "RULEBOOK TRIP -o FILE",
    summary: "A rulebook and the facts of a trip, written as one file.",
    text: "\
Neither file may hold a step, and one list of symbols must begin the other. The file is written whole or
not at all, and never over one of the two that are read; -o - is standard output.
",
    proved: "the bytes of the merged file, and a refusal with its reason, file and record.",
    not_proved: "the reason in words, and the writing to a disk.",
    statuses: "0 written, 2 refused, 3 not read or written.",
    takes: Takes { flags: &[], values: &["-o"] },
    run,
};

fn run(arguments: &Arguments, output: &mut Output) -> Result<Status, Failure> {
    let destination = Destination::of(arguments.value("-o"))?;
    let [rulebook, trip] = arguments.rest() else {
        return Err(Failure::usage("a rulebook and a trip are wanted"));
    };
    let (rulebook, trip) = (&Source::of(rulebook), &Source::of(trip));
    let merged = yestrwyn::merge(&rulebook.read()?, &trip.read()?);
    let merged = merged.map_err(|error| Failure::of(rulebook, error))?;
    let bytes = merged.map_err(|refusal| refused(rulebook, trip, refusal))?;
    destination.save(&[rulebook, trip], &bytes, output)?;
    Ok(Status::Accepted)
}

/// A refusal with the name of the file that it is about.
fn refused(rulebook: &Source, trip: &Source, MergeRefusal { reason, file, record }: MergeRefusal) -> Failure {
    match file {
        1 => Failure::refused(rulebook, reason, record),
        2 => Failure::refused(trip, reason, record),
        _ => Failure::refused(format_args!("{rulebook} and {trip}"), reason, record),
    }
}
