//! Checks many proof files on one day with one workspace, and prints the verdict on each. The arguments are the day and the
//! files.

use std::fs;
use std::io::{self, Write};

use yestrwyn::{with_stack, Verdict, Workspace};

fn main() -> io::Result<()> {
    let day = std::env::args().nth(1).and_then(|word| word.parse().ok());
    let day =
        day.ok_or_else(|| io::Error::other("usage: service DAY FILE .., with a day from 0 to 65535"))?;
    let files: Vec<Vec<u8>> = std::env::args_os().skip(2).map(fs::read).collect::<io::Result<_>>()?;
    for verdict in verdicts(day, &files)? {
        writeln!(io::stdout(), "{verdict}")?;
    }
    Ok(())
}

/// The verdicts on all files, by one thread with stack enough. An error is the system's, where it gives no
/// thread.
pub fn verdicts(day: u16, files: &[Vec<u8>]) -> io::Result<Vec<Verdict>> {
    let mut workspace = Workspace::new();
    with_stack(|| files.iter().map(|file| workspace.check_here(day, file).verdict).collect())
}
