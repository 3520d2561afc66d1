//! `yestrwyn convert`: a file in the other form.

use yestrwyn::{ConversionRefusal, Form};

use super::options::form;
use super::Command;
use crate::arguments::{Arguments, Takes};
use crate::failure::Failure;
use crate::input::Source;
use crate::output::Output;
use crate::saving::Destination;
use crate::status::Status;

pub const COMMAND: Command = Command {
    name: "convert",
    synopsis: "--to old|new FILE -o FILE",
    summary: "A file in the other form, with the days of a rule beside it or in records of their own.",
    text: "\
    --to new       from records of 16 bytes to records of 20, with the days beside each rule
    --to old       from those back to records of 16 bytes

The bytes of a file do not say its form: it is read in the one that it is converted from. The file is
written whole or not at all, and never over the one that is read; -o - is standard output.
",
    proved: "the bytes of the converted file, and a refusal with its reason and record.",
    not_proved: "the reason in words, and the writing to a disk.",
    statuses: "0 written, 2 refused, 3 not read or written.",
    takes: Takes { flags: &[], values: &["--to", "-o"] },
    run,
};

fn run(arguments: &Arguments, output: &mut Output) -> Result<Status, Failure> {
    let destination = Destination::of(arguments.value("-o"))?;
    let source = Source::of(arguments.one("one file")?);
    if arguments.value("--to").is_none() {
        return Err(Failure::usage("--to old or --to new is wanted"));
    }
    let bytes = source.read()?;
    let converted = match form(arguments, "--to")? {
        Form::New => yestrwyn::to_new(&bytes),
        Form::Old => yestrwyn::to_old(&bytes),
    };
    let converted = converted.map_err(|error| Failure::of(&source, error))?;
    let refused = |ConversionRefusal { reason, record, .. }: ConversionRefusal| {
        Failure::refused(&source, reason, record)
    };
    destination.save(&[&source], &converted.map_err(refused)?, output)?;
    Ok(Status::Accepted)
}
