//! Reads what the program `proofread_canonical` reads, two bytes of day, low byte first, then a proof file, from standard
//! input, and prints the second readout of the file on that day.

use std::io;

use yestrwyn_second::{program, write_canonical_readout};

fn main() -> io::Result<()> {
    program::run(|day, file, tables, out| write_canonical_readout(day, file, tables, out))
}
