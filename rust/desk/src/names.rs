//! The names of symbols, read from the file that `--names` names, and a readout printed in them.

use std::ffi::OsStr;
use std::io::{self, Write};
use std::str;

use yestrwyn_derivations::Names;

use crate::failure::Failure;
use crate::input::Source;

/// A file of names has at most this many bytes: 4,096 lines with room for a comment in each.
const MOST: usize = 1 << 20;

/// The names of the file that an option names; none without it.
pub fn names(option: Option<&OsStr>) -> Result<Names, Failure> {
    let Some(source) = option.map(Source::of) else { return Ok(Names::none()) };
    let bytes = source.read_text(MOST)?;
    let text = str::from_utf8(&bytes).map_err(|error| {
        let line = 1 + bytes[..error.valid_up_to()].iter().filter(|&&byte| byte == b'\n').count();
        Failure::of(&source, format_args!("line {line}: a byte that is not UTF-8"))
    })?;
    Names::read(text).map_err(|error| Failure::of(&source, error))
}

/// A writer of readouts that puts names in the place of symbols.
pub struct Naming<'a, W> {
    names: &'a Names,
    out: W,
    line: Vec<u8>,
    is_first: bool,
}

impl<'a, W: Write> Naming<'a, W> {
    /// A writer to another one.
    pub fn new(names: &'a Names, out: W) -> Naming<'a, W> {
        Naming { names, out, line: Vec::new(), is_first: true }
    }

    /// Writes the line that was gathered. The first one, the verdict, has no symbols.
    fn end_line(&mut self) -> io::Result<()> {
        let line = match self.is_first {
            true => self.line.clone(),
            false => named(self.names, &self.line),
        };
        self.is_first = false;
        self.line.clear();
        self.out.write_all(&line)
    }
}

impl<W: Write> Write for Naming<'_, W> {
    fn write(&mut self, bytes: &[u8]) -> io::Result<usize> {
        for part in bytes.split_inclusive(|&byte| byte == b'\n') {
            self.line.extend_from_slice(part);
            if part.ends_with(b"\n") {
                self.end_line()?;
            }
        }
        Ok(bytes.len())
    }

    fn flush(&mut self) -> io::Result<()> {
        self.out.flush()
    }
}

/// The line of a clause with names for its symbols. In such a line an `s` stands before the number of a symbol and nowhere else.
fn named(names: &Names, line: &[u8]) -> Vec<u8> {
    let mut parts = line.split(|&byte| byte == b's');
    let mut text = parts.next().unwrap_or_default().to_vec();
    for part in parts {
        let digits = part.iter().take_while(|byte| byte.is_ascii_digit()).count();
        let number = str::from_utf8(&part[..digits]).ok().and_then(|number| number.parse().ok());
        match number {
            Some(number) => text.extend_from_slice(names.symbol(number).as_bytes()),
            None => text.extend([&b"s"[..], &part[..digits]].concat()),
        }
        text.extend_from_slice(&part[digits..]);
    }
    text
}

#[cfg(test)]
mod tests {
    use super::*;

    #[test]
    fn symbols_by_name() {
        let names = Names::read("s0 departs\ns12 sunset").expect("names");
        let mut text = Vec::new();
        let mut naming = Naming::new(&names, &mut text);
        for part in ["acc", "epted 1\n0 1 +s", "0(s1,v0.1) -", "s12 +~\n1 2\n"] {
            naming.write_all(part.as_bytes()).expect("written");
        }
        assert_eq!(String::from_utf8_lossy(&text), "accepted 1\n0 1 +departs(s1,v0.1) -sunset +~\n1 2\n");
    }
}
