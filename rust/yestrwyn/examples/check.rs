//! Checks a proof file from standard input on a day, which is the argument, and prints the verdict.

use std::io::{self, Read, Write};

fn main() -> io::Result<()> {
    let day = std::env::args().nth(1).and_then(|word| word.parse().ok());
    let day = day.ok_or_else(|| io::Error::other("usage: check DAY < FILE, with a day from 0 to 65535"))?;
    let mut file = Vec::new();
    // One byte more than the longest file: what is longer is read as too long.
    io::stdin().take(65_537).read_to_end(&mut file)?;
    writeln!(io::stdout(), "{}", verdict(day, &file)?)
}

/// The verdict as the readout prints it. An error is the system's, where it gives no thread.
pub fn verdict(day: u16, file: &[u8]) -> io::Result<String> {
    Ok(yestrwyn::check(day, file)?.verdict.to_string())
}
