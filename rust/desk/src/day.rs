//! A day: its number, or a date. Day 0 is 1970-01-01, from which nearly all systems count their days, so that a number is had of
//! them without a table; the last, 65,535, is 2149-06-06.

use std::ffi::OsStr;
use std::fmt;
use std::time::{SystemTime, UNIX_EPOCH};

use yestrwyn::date;

use crate::failure::shown;

const SECONDS: u64 = 24 * 60 * 60;

/// Why a word is no day.
#[derive(Clone, PartialEq, Eq, Debug)]
pub enum DayError {
    /// It is neither a number nor a date.
    Word(String),
    /// It is a number over the last day's.
    Number(String),
    /// It is written like a date, but the calendar has none such.
    NoDate(String),
    /// It is a date before the first day.
    Before(String),
    /// It is a date after the last day.
    After(String),
    /// The clock of the machine is outside of the days.
    Clock,
}

/// The day that a word stands for: a number from 0 to 65535, a date such as 2027-07-01, or `today`.
pub fn read(word: &OsStr) -> Result<u16, DayError> {
    let unknown = || DayError::Word(shown(word));
    let word = word.to_str().ok_or_else(unknown)?;
    if word == "today" {
        return today().ok_or(DayError::Clock);
    }
    if !word.is_empty() && word.bytes().all(|byte| byte.is_ascii_digit()) {
        return word.parse().map_err(|_| DayError::Number(word.to_string()));
    }
    match looks_like_a_date(word) {
        true => day_of(word),
        false => Err(unknown()),
    }
}

/// Today by the machine's clock, in universal time.
fn today() -> Option<u16> {
    let seconds = SystemTime::now().duration_since(UNIX_EPOCH).ok()?.as_secs();
    u16::try_from(seconds / SECONDS).ok()
}

/// Is a word four digits, two and two, with hyphens between them?
fn looks_like_a_date(word: &str) -> bool {
    let like =
        |(at, byte): (usize, u8)| if at == 4 || at == 7 { byte == b'-' } else { byte.is_ascii_digit() };
    word.len() == 10 && word.bytes().enumerate().all(like)
}

/// The day of a date. Dates so written are in the order of their days, so that it is found between them.
fn day_of(word: &str) -> Result<u16, DayError> {
    let (mut low, mut high) = (0, u16::MAX);
    if *word < *date(low) {
        return Err(DayError::Before(word.to_string()));
    }
    if *word > *date(high) {
        return Err(DayError::After(word.to_string()));
    }
    while low < high {
        let middle = low + (high - low) / 2;
        match *date(middle) < *word {
            true => low = middle + 1,
            false => high = middle,
        }
    }
    match date(low) == word {
        true => Ok(low),
        false => Err(DayError::NoDate(word.to_string())),
    }
}

impl fmt::Display for DayError {
    fn fmt(&self, out: &mut fmt::Formatter<'_>) -> fmt::Result {
        let (first, last) = (date(0), date(u16::MAX));
        match self {
            DayError::Word(word) => {
                write!(
                    out,
                    "'{word}' is no day: a number from 0 to 65535, a date such as 2027-07-01, or today"
                )
            }
            DayError::Number(word) => write!(out, "{word} is no day: the last is 65535, which is {last}"),
            DayError::NoDate(word) => write!(out, "{word} is no date of the calendar"),
            DayError::Before(word) => write!(out, "{word} is before the first day, {first}, which is day 0"),
            DayError::After(word) => write!(out, "{word} is after the last day, {last}, which is day 65535"),
            DayError::Clock => write!(out, "today, by the machine's clock, is not from {first} to {last}"),
        }
    }
}

#[cfg(test)]
mod tests {
    use super::*;

    fn day(word: &str) -> Result<u16, DayError> {
        read(OsStr::new(word))
    }

    #[test]
    fn numbers_and_dates() {
        for (word, number) in [
            ("0", 0),
            ("007", 7),
            ("65535", 65_535),
            ("1970-01-01", 0),
            ("1972-02-29", 789),
            ("2000-02-29", 11_016),
            ("2027-07-01", 21_000),
            ("2149-06-06", 65_535),
        ] {
            assert_eq!(day(word), Ok(number), "{word}");
        }
        assert!(day("today").is_ok());
    }

    #[test]
    fn every_day_has_its_date() {
        for number in 0..=u16::MAX {
            assert_eq!(day(&date(number)), Ok(number));
        }
    }

    #[test]
    fn words_that_are_no_day() {
        let words = "is no day: a number from 0 to 65535, a date such as 2027-07-01, or today";
        for word in ["", "-1", "+5", "2027-7-1", "2027-07-01T00", "1.5", "0x10", "tomorrow", "２０２７"] {
            assert_eq!(day(word).expect_err(word).to_string(), format!("'{word}' {words}"));
        }
        for (word, why) in [
            ("65536", "65536 is no day: the last is 65535, which is 2149-06-06"),
            ("2027-02-29", "2027-02-29 is no date of the calendar"),
            ("2027-13-01", "2027-13-01 is no date of the calendar"),
            ("2027-00-01", "2027-00-01 is no date of the calendar"),
            ("2100-02-29", "2100-02-29 is no date of the calendar"),
            ("1969-12-31", "1969-12-31 is before the first day, 1970-01-01, which is day 0"),
            ("2149-06-07", "2149-06-07 is after the last day, 2149-06-06, which is day 65535"),
        ] {
            assert_eq!(day(word).expect_err(word).to_string(), why);
        }
    }
}
