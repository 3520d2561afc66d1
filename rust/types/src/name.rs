//! The name of a symbol: what a readout in names prints in its place.

use std::error::Error;
use std::fmt;

/// Characters that a name may have at most.
pub const NAME_CHARACTERS: usize = 64;

/// What a name may have besides letters and digits, but not at its beginning.
const MARKS: &str = "_-.:/";

/// Why a word is no name.
#[derive(Clone, Copy, PartialEq, Eq, Hash, Debug)]
pub enum NameError {
    /// It has no characters.
    Empty,
    /// It has over 64.
    Long,
    /// It does not begin with a letter or a digit of ASCII.
    Beginning(char),
    /// A further character is neither such a letter or digit nor one of `_-.:/`.
    Character(char),
    /// It is what a readout prints for a symbol without a name or for a variable: `s3`, `v0.1` or `v0`.
    Numbered,
}

/// Is a word a name of a symbol? It is if it begins with a letter or a digit of ASCII, goes on with these and `_-.:/`, and is not what
/// a readout prints for a symbol or a variable that has no name. So a readout in names reads back in one way only: blanks, signs,
/// parentheses and commas stay those of the readout, and no two names differ in letters that look alike in other alphabets.
pub fn test_name(word: &str) -> Result<(), NameError> {
    let Some(first) = word.chars().next() else { return Err(NameError::Empty) };
    if !first.is_ascii_alphanumeric() {
        return Err(NameError::Beginning(first));
    }
    let belongs = |&letter: &char| letter.is_ascii_alphanumeric() || MARKS.contains(letter);
    if let Some(other) = word.chars().find(|letter| !belongs(letter)) {
        return Err(NameError::Character(other));
    }
    if word.len() > NAME_CHARACTERS {
        return Err(NameError::Long);
    }
    if is_numbered(word) {
        return Err(NameError::Numbered);
    }
    Ok(())
}

/// Is a word `s` or `v` and a number, or `v`, a number, a dot and a number?
fn is_numbered(word: &str) -> bool {
    let number = |word: &str| !word.is_empty() && word.bytes().all(|byte| byte.is_ascii_digit());
    match (word.strip_prefix('s'), word.strip_prefix('v')) {
        (Some(symbol), _) => number(symbol),
        (_, Some(variable)) => {
            variable.split_once('.').map_or(number(variable), |(v, k)| number(v) && number(k))
        }
        _ => false,
    }
}

impl fmt::Display for NameError {
    fn fmt(&self, out: &mut fmt::Formatter<'_>) -> fmt::Result {
        match self {
            NameError::Empty => write!(out, "a name has at least one character"),
            NameError::Long => write!(out, "a name has at most {NAME_CHARACTERS} characters"),
            NameError::Beginning(letter) => {
                write!(out, "a name begins with a letter or a digit of ASCII, not with {letter:?}")
            }
            NameError::Character(letter) => {
                write!(out, "a name has letters and digits of ASCII and {MARKS}, not {letter:?}")
            }
            NameError::Numbered => {
                write!(out, "a name is not what a readout prints for a symbol or a variable without one")
            }
        }
    }
}

impl Error for NameError {}
