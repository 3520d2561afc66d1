//! Merges two proof files, for example a rulebook and the facts of a trip, and writes the merged file to standard output. The
//! arguments are the two files.

use std::fs;
use std::io::{self, Write};

fn main() -> io::Result<()> {
    let files: Vec<Vec<u8>> = std::env::args_os().skip(1).map(fs::read).collect::<io::Result<_>>()?;
    let [first, second] = files.as_slice() else {
        return Err(io::Error::other("usage: merge FIRST SECOND > MERGED"));
    };
    io::stdout().write_all(&merged(first, second)?)
}

/// The merged file. An error is why there is none, or the system's, where it gives no thread.
pub fn merged(first: &[u8], second: &[u8]) -> io::Result<Vec<u8>> {
    yestrwyn::merge(first, second)?.map_err(io::Error::other)
}
