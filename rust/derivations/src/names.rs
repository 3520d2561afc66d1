//! The names of a file's symbols, read from a text: only printed, and never part of what is checked.

use std::collections::BTreeMap;
use std::error::Error;
use std::fmt;

use yestrwyn_types::limits::RECORDS;
use yestrwyn_types::{test_name, NameError};

/// Names of symbols. A symbol without one is printed by its number.
///
/// ```
/// use yestrwyn_derivations::Names;
///
/// let names = Names::read("# a trip\ns0 departs\ns5 Lakeside # the airfield\n")?;
/// assert_eq!([names.symbol(0), names.symbol(3), names.symbol(5)], ["departs", "s3", "Lakeside"]);
/// # Ok::<(), yestrwyn_derivations::NamesError>(())
/// ```
#[derive(Clone, PartialEq, Eq, Default, Debug)]
pub struct Names {
    names: BTreeMap<u16, String>,
}

impl Names {
    /// No names: every symbol is printed by its number.
    pub fn none() -> Names {
        Names::default()
    }

    /// The names of a text: in each line a symbol as readouts print it, blanks, and its name; what follows a `#` is a comment, and
    /// lines without anything else are passed over. Neither a symbol nor a name may stand twice: names that are the same would
    /// make different symbols look alike.
    pub fn read(text: &str) -> Result<Names, NamesError> {
        let text = text.strip_prefix('\u{feff}').unwrap_or(text);
        let mut lines = Lines::default();
        for (line, number) in text.lines().zip(1..) {
            lines.read(number, line).map_err(|fault| NamesError { line: number, fault })?;
        }
        Ok(Names { names: lines.names })
    }

    /// What is printed for a symbol: its name, or `s` and its number.
    pub fn symbol(&self, number: u16) -> String {
        self.get(number).map_or_else(|| format!("s{number}"), str::to_string)
    }

    /// The name of a symbol, if it has one.
    pub fn get(&self, number: u16) -> Option<&str> {
        self.names.get(&number).map(String::as_str)
    }

    /// Are there no names?
    pub fn is_empty(&self) -> bool {
        self.names.is_empty()
    }
}

/// Lines that were read.
#[derive(Default)]
struct Lines {
    names: BTreeMap<u16, String>,
    /// For each symbol, and for each name, the line in which it stands.
    symbols: BTreeMap<u16, usize>,
    taken: BTreeMap<String, usize>,
}

impl Lines {
    /// Reads a line.
    fn read(&mut self, number: usize, line: &str) -> Result<(), NamesFault> {
        let line = line.split('#').next().unwrap_or_default();
        let mut words = line.split_whitespace();
        let Some(symbol) = words.next() else { return Ok(()) };
        let symbol = symbol_of(symbol).ok_or_else(|| NamesFault::Symbol(symbol.to_string()))?;
        let name = words.next().ok_or(NamesFault::NoName(symbol))?;
        if let Some(word) = words.next() {
            return Err(NamesFault::Further(word.to_string()));
        }
        test_name(name).map_err(|error| NamesFault::Name(name.to_string(), error))?;
        if let Some(line) = self.symbols.insert(symbol, number) {
            return Err(NamesFault::SymbolTwice { symbol, line });
        }
        if let Some(line) = self.taken.insert(name.to_string(), number) {
            return Err(NamesFault::NameTwice { name: name.to_string(), line });
        }
        self.names.insert(symbol, name.to_string());
        Ok(())
    }
}

/// The number of a symbol as readouts print it: no file has more than 4,096, and none begins with a zero too many.
fn symbol_of(word: &str) -> Option<u16> {
    let digits = word.strip_prefix('s')?;
    let number: u16 = digits.parse().ok()?;
    (usize::from(number) < RECORDS && digits == number.to_string()).then_some(number)
}

/// Why names are not read, and in which line.
#[derive(Clone, PartialEq, Eq, Debug)]
pub struct NamesError {
    /// The line, from 1.
    pub line: usize,
    /// What is wrong there.
    pub fault: NamesFault,
}

/// What is wrong in a line of names.
#[derive(Clone, PartialEq, Eq, Debug)]
pub enum NamesFault {
    /// It does not begin with a symbol.
    Symbol(String),
    /// The symbol has no name after it.
    NoName(u16),
    /// The word after the symbol is no name.
    Name(String, NameError),
    /// There is a further word after the name.
    Further(String),
    /// The symbol has a name already.
    SymbolTwice {
        /// The symbol.
        symbol: u16,
        /// The earlier line.
        line: usize,
    },
    /// Another symbol has the name already.
    NameTwice {
        /// The name.
        name: String,
        /// The earlier line.
        line: usize,
    },
}

impl fmt::Display for NamesError {
    fn fmt(&self, out: &mut fmt::Formatter<'_>) -> fmt::Result {
        write!(out, "line {}: {}", self.line, self.fault)
    }
}

impl fmt::Display for NamesFault {
    fn fmt(&self, out: &mut fmt::Formatter<'_>) -> fmt::Result {
        match self {
            NamesFault::Symbol(word) => write!(out, "{word:?} is no symbol: s0 to s{}", RECORDS - 1),
            NamesFault::NoName(symbol) => write!(out, "s{symbol} has no name after it"),
            NamesFault::Name(word, error) => write!(out, "{word:?} is no name: {error}"),
            NamesFault::Further(word) => write!(out, "{word:?} follows the name: a name is one word"),
            NamesFault::SymbolTwice { symbol, line } => {
                write!(out, "s{symbol} has a name in line {line} already")
            }
            NamesFault::NameTwice { name, line } => {
                write!(out, "the name {name} is that of another symbol, in line {line}")
            }
        }
    }
}

impl Error for NamesError {}
