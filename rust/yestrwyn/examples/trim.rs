//! Trims a proof file to what its accepted clause uses and writes the trimmed file to standard output. The arguments are the day
//! and the file.

use std::fs;
use std::io::{self, Write};

fn main() -> io::Result<()> {
    let words: Vec<String> = std::env::args().skip(1).collect();
    let [day, name] = words.as_slice() else {
        return Err(io::Error::other("usage: trim DAY FILE > TRIMMED"));
    };
    let day = day.parse().map_err(io::Error::other)?;
    io::stdout().write_all(&trimmed(day, &fs::read(name)?)?)
}

/// The trimmed file. An error is why there is none, or the system's, where it gives no thread.
pub fn trimmed(day: u16, file: &[u8]) -> io::Result<Vec<u8>> {
    yestrwyn::trim(day, file)?.map_err(io::Error::other)
}
