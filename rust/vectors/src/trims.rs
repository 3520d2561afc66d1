//! The stored vectors of files that are trimmed: which files there are, and what the trim gives, as text. The format is described
//! in `README.md` beside the results.

use yestrwyn_second::trim_into;
use yestrwyn_types::limits::FILE_BYTES;
use yestrwyn_types::Cells;

use crate::examples::{trims, Example};
use crate::padding::trimming_file;
use crate::random::damage;
use crate::stored::{file_lines, hashes, joined, line};

/// The name of the group, by which its results are stored.
pub const GROUP: &str = "trims";
/// Number of random files, and of damaged ones.
const RANDOM_FILES: u64 = 60;
const DAMAGED_FILES: u64 = 20;

/// All files that are stored: the named ones, random ones and damaged ones.
pub fn files() -> Vec<Example> {
    let mut all = trims::examples();
    all.extend((0..RANDOM_FILES).map(random_trim));
    all.extend((0..DAMAGED_FILES).map(damaged_trim));
    all
}

/// The random file of a seed, with a day near its days.
pub fn random_trim(seed: u64) -> Example {
    let (day, file) = trimming_file(seed);
    Example::on(day, &format!("trimming-{seed}"), file)
}

/// The same file, damaged.
pub fn damaged_trim(seed: u64) -> Example {
    let Example { name, day, file } = random_trim(seed);
    Example { name: format!("damaged-{name}"), day, file: damage(&file, seed) }
}

/// What every file gives, as text.
pub fn expected(files: &[Example]) -> String {
    let mut text = String::new();
    for file in files {
        describe(&mut text, file);
    }
    text
}

/// One vector's part of the text.
fn describe(text: &mut String, Example { name, day, file }: &Example) {
    let (mut cells, mut output) = (Cells::new(), vec![0; FILE_BYTES]);
    let trimmed = trim_into(*day, file, &mut cells.lend(), &mut output);
    line(text, "trim", name);
    line(text, "day", day);
    file_lines(text, "file", file);
    line(text, "answer", &joined(trimmed.numbers()));
    line(text, "hashes", &hashes(&cells));
    if let Some(written) = trimmed.length().and_then(|length| output.get(..length)) {
        file_lines(text, "trimmed", written);
    }
}
