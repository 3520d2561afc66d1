//! The stored vectors of the second readout: named files and their two readouts, as text. The format is described in
//! `README.md` beside the results.

use yestrwyn_second::{canonical_readout, readout};

use crate::examples::Example;
use crate::stored::{file_lines, length_and_hash, line, readout_lines};

/// The name of the group, by which its results are stored.
pub const GROUP: &str = "canonical";

/// What every file gives, as text.
pub fn expected(examples: &[Example]) -> String {
    let mut text = String::new();
    for example in examples {
        describe(&mut text, example);
    }
    text
}

/// One vector's part of the text.
fn describe(text: &mut String, Example { name, day, file }: &Example) {
    line(text, "vector", name);
    line(text, "day", day);
    file_lines(text, "file", file);
    line(text, "readout", &length_and_hash(&readout(*day, file)));
    readout_lines(text, "canonical", &canonical_readout(*day, file));
}
