//! Packs of random files, and what any pack gives, for comparing checkers on more than the stored
//! vectors:
//!
//! ```text
//! packs random FIRST COUNT > PACK    files of the seeds from FIRST on, each fourth one damaged
//! packs heavy > PACK                 files made to take a checker long
//! packs days FIRST COUNT > PACK      files with days, as the program `proofread` reads them
//! packs describe < PACK > TEXT       the results on day 0, in the format of the stored vectors
//! packs describe-days < PACK > TEXT  the same for a pack of files with days
//! ```

use std::io::{self, Read, Write};
use std::process::ExitCode;

use yestrwyn_vectors::dated_file;
use yestrwyn_vectors::examples::{heavy, Example};
use yestrwyn_vectors::outcome::outcome_on;
use yestrwyn_vectors::stored::{day_and_file, describe, pack, random_example, unpack};

fn main() -> ExitCode {
    let arguments: Vec<String> = std::env::args().skip(1).collect();
    let words: Vec<&str> = arguments.iter().map(String::as_str).collect();
    let done = match words.as_slice() {
        [what @ ("random" | "days"), first, count] => match (first.parse(), count.parse()) {
            (Ok(first), Ok(count)) => {
                write_random(first, count, if *what == "days" { dated_entry } else { random_entry })
            }
            _ => return usage(),
        },
        ["heavy"] => {
            io::stdout().lock().write_all(&pack(heavy::examples().into_iter().map(|heavy| heavy.file)))
        }
        ["describe"] => write_description(false),
        ["describe-days"] => write_description(true),
        _ => return usage(),
    };
    match done {
        Ok(()) => ExitCode::SUCCESS,
        Err(error) => {
            eprintln!("{error}");
            ExitCode::FAILURE
        }
    }
}

fn usage() -> ExitCode {
    eprintln!("usage: packs random FIRST COUNT > PACK, packs days FIRST COUNT > PACK, packs heavy > PACK,");
    eprintln!("packs describe < PACK > TEXT, or packs describe-days < PACK > TEXT");
    ExitCode::FAILURE
}

/// The random file of a seed.
fn random_entry(seed: u64) -> Vec<u8> {
    random_example(seed).file
}

/// The random file with a day of a seed.
fn dated_entry(seed: u64) -> Vec<u8> {
    let (day, file) = dated_file(seed);
    Example::on(day, "", file).input()
}

/// A pack of random files, written one at a time.
fn write_random(first: u64, count: u64, entry: fn(u64) -> Vec<u8>) -> io::Result<()> {
    let mut out = io::BufWriter::new(io::stdout().lock());
    for place in 0..count {
        out.write_all(&pack([entry(first.wrapping_add(place))]))?;
    }
    out.flush()
}

/// The results of a pack, whose entries begin with a day or are files on day 0; each file's name is its place in the pack.
fn write_description(dated: bool) -> io::Result<()> {
    let mut bytes = Vec::new();
    io::stdin().lock().read_to_end(&mut bytes)?;
    let files = unpack(&bytes).ok_or_else(|| io::Error::other("the pack is cut short"))?;
    let mut out = io::BufWriter::new(io::stdout().lock());
    for (place, entry) in files.iter().enumerate() {
        let entry = if dated { day_and_file(entry) } else { Some((0, *entry)) };
        let (day, file) = entry.ok_or_else(|| io::Error::other("an entry has no day"))?;
        let mut text = String::new();
        describe(&mut text, &place.to_string(), &outcome_on(day, file));
        out.write_all(text.as_bytes())?;
    }
    out.flush()
}
