//! `yestrwyn from-spass`: a proof of SPASS's as a proof file.

use std::str;

use yestrwyn_spass::proof_file;

use super::check::in_words;
use super::Command;
use crate::arguments::{Arguments, Takes};
use crate::failure::Failure;
use crate::input::Source;
use crate::output::Output;
use crate::saving::Destination;
use crate::status::Status;

/// A proof of SPASS's has at most this many bytes.
const MOST: usize = 1 << 24;

pub const COMMAND: Command = Command {
    name: "from-spass",
    synopsis: "PROOF -o FILE [--names N]",
    summary: "The proof that SPASS prints with -DocProof, as a proof file, which is then checked.",
    text: "\
The problem is one without equality. An inference that is neither a resolution nor a factoring is broken
into these, or the step is named that cannot be. Files are written whole or not at all; -o - is standard
output.

    --names N      write SPASS's names of the symbols to this file
",
    proved: "the verdict on the file that is written.",
    not_proved: "that its input clauses are those of the problem that SPASS was given.",
    statuses: "0 written and accepted, 3 not read, not converted or not written.",
    takes: Takes { flags: &[], values: &["-o", "--names"] },
    run,
};

fn run(arguments: &Arguments, output: &mut Output) -> Result<Status, Failure> {
    let destination = Destination::of(arguments.value("-o"))?;
    let names = arguments.value("--names").map(|word| Destination::of(Some(word))).transpose()?;
    if arguments.value("--names") == arguments.value("-o") {
        return Err(Failure::usage("-o and --names name one file for two"));
    }
    let source = Source::of(arguments.one("one proof")?);
    let bytes = source.read_text(MOST)?;
    let text = str::from_utf8(&bytes).map_err(|_| Failure::of(&source, "it is no text in UTF-8"))?;
    let converted = proof_file(text).map_err(|error| Failure::of(&source, error))?;
    // SPASS's clauses have no days, so that one day stands for all.
    let answer = yestrwyn::check(0, &converted.file).map_err(|error| Failure::of(&source, error))?;
    if let Some(names) = names {
        names.save(&[&source], converted.names.as_bytes(), output)?;
    }
    destination.save(&[&source], &converted.file, output)?;
    if let Destination::Path(_) = destination {
        output.print(format!("{destination}: {}: {}\n", in_words(answer.verdict), converted.summary))?;
    }
    Ok(answer.verdict.into())
}
