//! Why something was not done: one line on standard error, with the name of the file concerned.

use std::ffi::OsStr;
use std::fmt::{self, Display};
use std::io::{self, Write};

use yestrwyn::Reason;

use crate::status::Status;

/// Why something was not done.
#[derive(Clone, PartialEq, Eq, Debug)]
pub struct Failure {
    status: Status,
    line: String,
    is_usage: bool,
}

impl Failure {
    /// The command was not called as it must be.
    pub fn usage(what: impl Display) -> Failure {
        Failure { is_usage: true, ..Failure::new(Status::Failed, what) }
    }

    /// A file could not be read or written, or says nothing that can be used.
    pub fn of(file: impl Display, what: impl Display) -> Failure {
        Failure::new(Status::Failed, format_args!("{file}: {what}"))
    }

    /// A file is refused at a record.
    pub fn refused(file: impl Display, reason: Reason, record: u16) -> Failure {
        let number = reason.number();
        Failure::new(Status::Refused, format_args!("{file}: refused {number} at {record}: {reason}"))
    }

    /// The same with another status.
    pub fn with(self, status: Status) -> Failure {
        Failure { status, ..self }
    }

    /// A failure of a status.
    fn new(status: Status, line: impl Display) -> Failure {
        Failure { status, line: one_line(&line.to_string()), is_usage: false }
    }

    /// Was the command not called as it must be?
    pub fn is_usage(&self) -> bool {
        self.is_usage
    }

    /// The exit status that it asks for.
    pub fn status(&self) -> Status {
        self.status
    }

    /// Says it on standard error. Where that is closed or full, there is nobody to be told.
    pub fn say(&self) {
        say(format_args!("yestrwyn: {self}"));
    }
}

impl Display for Failure {
    fn fmt(&self, out: &mut fmt::Formatter<'_>) -> fmt::Result {
        out.write_str(&self.line)
    }
}

/// Writes a line to standard error.
pub fn say(line: impl Display) {
    let _ = writeln!(io::stderr(), "{line}");
}

/// A word of the caller's as it is printed: on one line, whatever its bytes.
pub fn shown(word: &OsStr) -> String {
    one_line(&word.to_string_lossy())
}

/// Text with what would end a line or steer a terminal written as an escape.
fn one_line(text: &str) -> String {
    let mut line = String::with_capacity(text.len());
    for letter in text.chars() {
        match letter {
            _ if letter.is_control() || is_directing(letter) => line.extend(letter.escape_default()),
            _ => line.push(letter),
        }
    }
    line
}

/// Does a character change the line or the direction in which text is shown?
fn is_directing(letter: char) -> bool {
    matches!(letter, '\u{2028}' | '\u{2029}' | '\u{200e}' | '\u{200f}' | '\u{202a}'..='\u{202e}' | '\u{2066}'..='\u{2069}')
}

#[cfg(test)]
mod tests {
    use super::*;

    #[test]
    fn a_failure_is_one_line() {
        let failure = Failure::of(shown(OsStr::new("a\nb\u{1b}\u{202e}ü")), "gone\r");
        assert_eq!(failure.to_string(), "a\\nb\\u{1b}\\u{202e}ü: gone\\r");
    }

    #[test]
    fn a_refusal_in_words() {
        let failure = Failure::refused("a.proof", Reason::Kind, 7);
        assert_eq!(failure.to_string(), format!("a.proof: refused 3 at 7: {}", Reason::Kind));
        assert_eq!(failure.status(), Status::Refused);
    }
}
