//! `yestrwyn trim`: an accepted file trimmed to what its proof uses.

use yestrwyn::{Reason, TrimRefusal};

use super::options::day;
use super::Command;
use crate::arguments::{Arguments, Takes};
use crate::checking::CheckedFile;
use crate::failure::Failure;
use crate::input::Source;
use crate::output::Output;
use crate::saving::Destination;
use crate::status::Status;

pub const COMMAND: Command = Command {
    name: "trim",
    synopsis: "[--day D] FILE -o FILE",
    summary: "An accepted file, trimmed to what its proof uses.",
    text: "\
What the accepted clause uses is kept, in its order, and numbers close up: those of symbols too, so that the
trimmed file needs names of its own. The file is written whole or not at all, and never over the one that
is read; -o - is standard output.

    --day D        the day on which it is accepted; asked for where the verdict can depend on it
",
    proved: "the bytes of the trimmed file, and a refusal with its reason and record.",
    not_proved: "the reason in words, and the writing to a disk.",
    statuses: "0 written, 1 the file is open and nothing is written, 2 refused, 3 not read or written.",
    takes: Takes { flags: &[], values: &["--day", "-o"] },
    run,
};

fn run(arguments: &Arguments, output: &mut Output) -> Result<Status, Failure> {
    let destination = Destination::of(arguments.value("-o"))?;
    let source = Source::of(arguments.one("one file")?);
    let checked = CheckedFile::read(source, day(arguments)?)?;
    let CheckedFile { source, bytes, .. } = &checked;
    let trimmed = yestrwyn::trim(checked.any_day(), bytes).map_err(|error| Failure::of(source, error))?;
    let trimmed = trimmed.map_err(|refusal| refused(source, refusal))?;
    destination.save(&[source], &trimmed, output)?;
    Ok(Status::Accepted)
}

/// A refusal in words. A file that stands and is not accepted is open.
fn refused(source: &Source, TrimRefusal { reason, record, .. }: TrimRefusal) -> Failure {
    let failure = Failure::refused(source, reason, record);
    match reason {
        Reason::NotAccepted => failure.with(Status::Open),
        _ => failure,
    }
}
