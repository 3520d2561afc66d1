//! Converts a proof file to the other form and writes the converted file to standard output. The arguments are the form that is
//! wanted, `new` or `old`, and the file.

use std::fs;
use std::io::{self, Write};

use yestrwyn::Form;

fn main() -> io::Result<()> {
    let words: Vec<String> = std::env::args().skip(1).collect();
    let (form, name) = match words.as_slice() {
        [form, name] if form == "new" => (Form::New, name),
        [form, name] if form == "old" => (Form::Old, name),
        _ => return Err(io::Error::other("usage: convert new|old FILE > CONVERTED")),
    };
    io::stdout().write_all(&converted(form, &fs::read(name)?)?)
}

/// The file in the form that is wanted. An error is why there is none, or the system's, where it gives no thread.
pub fn converted(form: Form, file: &[u8]) -> io::Result<Vec<u8>> {
    let converted = match form {
        Form::New => yestrwyn::to_new(file)?,
        Form::Old => yestrwyn::to_old(file)?,
    };
    converted.map_err(io::Error::other)
}
