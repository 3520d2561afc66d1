//! What the programs `readout` and `canonical` have in common. They read what the program `proofread` reads: two bytes of
//! day, low byte first, then a proof file.

use std::io::{self, BufWriter, Read, StdoutLock, Write};

use yestrwyn_types::limits::FILE_BYTES;
use yestrwyn_types::{Answer, Cells, Reason, Tables};

/// Reads a day and a file from standard input, and has a readout written to standard output.
pub fn run(
    write: impl FnOnce(u16, &[u8], &mut Tables<'_>, &mut BufWriter<StdoutLock<'_>>) -> io::Result<Answer>,
) -> io::Result<()> {
    let mut input = Vec::new();
    // A byte more than a day and the longest file: what is longer is read as too long.
    let longest = 2 + FILE_BYTES as u64 + 1;
    io::stdin().lock().take(longest).read_to_end(&mut input)?;
    let mut out = BufWriter::with_capacity(1 << 20, io::stdout().lock());
    match input.split_first_chunk() {
        Some((&day, file)) => {
            write(u16::from_le_bytes(day), file, &mut Cells::new().lend(), &mut out)?;
        }
        // Without a day there is no file either.
        None => writeln!(out, "{}", Answer::refused_whole(Reason::Length).verdict)?,
    }
    out.flush()
}
