//! Stored vectors: packs of files, what every file gives, and what the program `cases` prints for
//! them. The format is described in `README.md` beside the results.

use std::fmt::Write;
use std::path::{Path, PathBuf};

use yestrwyn_types::{Cells, Form};

use crate::clashing::{clashing_file, clashing_several_file};
use crate::dated::dated_file;
use crate::examples::{cases, days, deep, edges, published, refusals, Example};
use crate::outcome::{outcome_on, Outcome};
use crate::random::{damage, random_file, random_file_of, several_file, several_file_of};
use crate::repeating::repeating_file;

/// Tables with at most this many used cells are written in full.
const CELLS_IN_FULL: usize = 400;
/// Readouts of at most this many bytes are written in full.
const READOUT_IN_FULL: usize = 4096;
/// At most this many works are written in full.
const WORKS_IN_FULL: usize = 400;
/// Files that are in no pack are written in full if they have at most this many records.
const RECORDS_IN_FULL: usize = 24;
/// Number of random files, of those made to clash, of those with repeated rows, of those with steps on several right
/// literals, of longer ones without and with such steps, and of those with windows.
const RANDOM_FILES: u64 = 1000;
const CLASHING_FILES: u64 = 40;
const REPEATING_FILES: u64 = 20;
const SEVERAL_FILES: u64 = 30;
const CLASHING_SEVERAL_FILES: u64 = 8;
const LONG_FILES: u64 = 40;
const LONG_SEVERAL_FILES: u64 = 12;
const DATED_FILES: u64 = 200;

/// A group of vectors: the name of its two files, and the proof files in order.
pub struct Group {
    pub name: &'static str,
    /// Is a file's day in the pack? Otherwise all files are checked on day 0.
    pub dated: bool,
    pub examples: Vec<Example>,
}

impl Group {
    /// A group on day 0.
    fn plain(name: &'static str, examples: Vec<Example>) -> Group {
        Group { name, dated: false, examples }
    }

    /// What the pack has of a file: in a dated group what the program `proofread` reads.
    pub fn entry(&self, example: &Example) -> Vec<u8> {
        if self.dated {
            example.input()
        } else {
            example.file.clone()
        }
    }

    /// The pack of the group.
    pub fn pack(&self) -> Vec<u8> {
        pack(self.examples.iter().map(|example| self.entry(example)))
    }
}

/// All groups that are stored.
pub fn groups() -> Vec<Group> {
    vec![
        Group::plain("cases", cases::examples()),
        Group::plain("published", published()),
        Group::plain("edges", edges::examples()),
        Group::plain("refused", refusals::examples()),
        Group::plain("deep", deep::examples()),
        Group::plain("random", random_examples()),
        Group::plain("long", long_examples()),
        Group { name: "days", dated: true, examples: dated_examples() },
    ]
}

/// Where a group's pack is stored: in the folder that the program `cases` is run in.
pub fn pack_path(group: &str) -> PathBuf {
    repository().join("crates/cases/data").join(format!("{group}.bin"))
}

/// Where the results of a group are stored.
pub fn results_path(group: &str) -> PathBuf {
    repository().join("rust/vectors").join(format!("{group}.txt"))
}

/// Where the text is stored that the program `cases` must print.
pub fn listing_path() -> PathBuf {
    repository().join("crates/cases/stdout")
}

/// The repository's root: this package is the folder `rust/vectors` of it.
fn repository() -> &'static Path {
    let package = Path::new(env!("CARGO_MANIFEST_DIR"));
    package.ancestors().nth(2).unwrap_or(package)
}

/// Random files, then files made to clash, then files with repeated rows, then files with steps on several literals.
fn random_examples() -> Vec<Example> {
    let mut all: Vec<Example> = (0..RANDOM_FILES).map(random_example).collect();
    all.extend(seeded("clashing", CLASHING_FILES, clashing_file));
    all.extend(seeded("repeating", REPEATING_FILES, repeating_file));
    all.extend(seeded("several", SEVERAL_FILES, several_file));
    all.extend(seeded("clashing-several", CLASHING_SEVERAL_FILES, clashing_several_file));
    all
}

/// The files of the first seeds.
fn seeded(name: &str, count: u64, file: fn(u64) -> Vec<u8>) -> impl Iterator<Item = Example> + '_ {
    (0..count).map(move |seed| Example::new(&format!("{name}-{seed}"), file(seed)))
}

/// The random file of a seed; each fourth one is damaged with the same seed.
pub fn random_example(seed: u64) -> Example {
    match seed % 4 {
        3 => Example::new(&format!("damaged-{seed}"), damage(&random_file(seed), seed)),
        _ => Example::new(&format!("random-{seed}"), random_file(seed)),
    }
}

/// Random files of 200 to 590 records, then files of 200 to 530 with steps on several literals.
fn long_examples() -> Vec<Example> {
    let example = |name: &str, seed: u64, records: usize, file: fn(u64, usize) -> Vec<u8>| {
        Example::new(&format!("{name}-{records}-{seed}"), file(seed, records))
    };
    let plain = (0..LONG_FILES).map(|seed| example("long", seed, 200 + 10 * seed as usize, random_file_of));
    let several = (0..LONG_SEVERAL_FILES)
        .map(|seed| example("long-several", seed, 200 + 30 * seed as usize, several_file_of));
    plain.chain(several).collect()
}

/// Files with records of kind 8 on their days, then random ones.
fn dated_examples() -> Vec<Example> {
    let mut all = days::examples();
    all.extend((0..DATED_FILES).map(|seed| {
        let (day, file) = dated_file(seed);
        Example::on(day, &format!("dated-{seed}"), file)
    }));
    all
}

/// A pack: for each entry four bytes of length, low byte first, and its bytes.
pub fn pack(entries: impl IntoIterator<Item = Vec<u8>>) -> Vec<u8> {
    let mut bytes = Vec::new();
    for entry in entries {
        let length = u32::try_from(entry.len()).unwrap_or(u32::MAX);
        bytes.extend_from_slice(&length.to_le_bytes());
        bytes.extend_from_slice(&entry);
    }
    bytes
}

/// The entries of a pack, or none if it is cut short.
pub fn unpack(mut bytes: &[u8]) -> Option<Vec<&[u8]>> {
    let mut files = Vec::new();
    while !bytes.is_empty() {
        let (length, rest) = bytes.split_first_chunk::<4>()?;
        let length = usize::try_from(u32::from_le_bytes(*length)).ok()?;
        files.push(rest.get(..length)?);
        bytes = rest.get(length..)?;
    }
    Some(files)
}

/// The day and the file of an entry of a dated group, if it has two bytes for the day.
pub fn day_and_file(entry: &[u8]) -> Option<(u16, &[u8])> {
    let (&day, file) = entry.split_first_chunk()?;
    Some((u16::from_le_bytes(day), file))
}

/// What every file of a group gives, as text.
pub fn expected(group: &Group) -> String {
    let mut text = String::new();
    for example in &group.examples {
        describe(&mut text, &example.name, &outcome_on(example.day, &example.file));
    }
    text
}

/// One vector's part of the text.
pub fn describe(text: &mut String, name: &str, outcome: &Outcome) {
    line(text, "vector", &name);
    line(text, "answer", &joined(outcome.answer.numbers()));
    for (table, used) in ["symbols", "rows", "clauses", "bindings"].iter().zip(outcome.used()) {
        if used.len() <= CELLS_IN_FULL {
            line(text, table, &joined(used.iter().copied()));
        }
    }
    line(text, "hashes", &hashes(&outcome.cells));
    let works: Vec<String> =
        outcome.works.iter().map(|step| format!("{}:{}", step.record, step.work)).collect();
    if works.len() <= WORKS_IN_FULL {
        line(text, "works", &works.join(" "));
    }
    let total: u64 = outcome.works.iter().map(|step| u64::from(step.work)).sum();
    line(text, "total", &format!("{} {total}", works.len()));
    readout_lines(text, "readout", &outcome.readout);
    line(text, "canonical", &length_and_hash(&outcome.canonical));
}

/// The lines of a readout: its length and hash, and its own lines if it is short.
pub fn readout_lines(text: &mut String, word: &str, readout: &[u8]) {
    line(text, word, &length_and_hash(readout));
    if readout.len() <= READOUT_IN_FULL {
        for part in String::from_utf8_lossy(readout).lines() {
            line(text, "|", &part);
        }
    }
}

/// The lines of a file of the old form that is in no pack: its length and hash, and its records if there are few.
pub fn file_lines(text: &mut String, word: &str, file: &[u8]) {
    form_lines(text, word, Form::Old, file);
}

/// The same of a file of either form.
pub fn form_lines(text: &mut String, word: &str, form: Form, file: &[u8]) {
    line(text, word, &length_and_hash(file));
    if file.len() <= RECORDS_IN_FULL * form.record_bytes() {
        for record in file.chunks(form.record_bytes()) {
            let digits: String = record.iter().map(|byte| format!("{byte:02x}")).collect();
            line(text, "|", &digits);
        }
    }
}

/// What the program `cases` prints for all groups.
pub fn listing(groups: &[Group]) -> String {
    let mut text = String::new();
    for group in groups {
        line(&mut text, group.name, &group.examples.len());
        for (place, example) in group.examples.iter().enumerate() {
            let outcome = outcome_on(example.day, &example.file);
            let answer = joined(outcome.answer.numbers());
            let readouts = [&outcome.readout, &outcome.canonical].map(|text| length_and_hash(text)).join(" ");
            line(&mut text, &place.to_string(), &format!("{answer} {} {readouts}", hashes(&outcome.cells)));
        }
    }
    text
}

/// The hash of each table, in hexadecimal digits.
pub fn hashes(Cells { symbols, rows, clauses, bindings }: &Cells) -> String {
    let hashes = [symbols, rows, clauses, bindings]
        .map(|cells| hash(cells.iter().flat_map(|cell| cell.to_le_bytes())));
    hashes.map(|hash| format!("{hash:016x}")).join(" ")
}

/// How many bytes there are, and their hash in hexadecimal digits.
pub fn length_and_hash(bytes: &[u8]) -> String {
    format!("{} {:016x}", bytes.len(), hash(bytes.iter().copied()))
}

/// A line: a word, and what follows it if anything does.
pub fn line(text: &mut String, word: &str, rest: &dyn std::fmt::Display) {
    let whole = format!("{word} {rest}");
    // Writing to a string does not fail.
    let _ = writeln!(text, "{}", whole.trim_end());
}

/// Numbers with blanks between them.
pub fn joined<T: ToString>(numbers: impl IntoIterator<Item = T>) -> String {
    let written: Vec<String> = numbers.into_iter().map(|number| number.to_string()).collect();
    written.join(" ")
}

/// FNV-1a with 64 bits.
pub fn hash(bytes: impl Iterator<Item = u8>) -> u64 {
    bytes.fold(0xcbf2_9ce4_8422_2325, |hash, byte| {
        (hash ^ u64::from(byte)).wrapping_mul(0x0000_0100_0000_01b3)
    })
}
