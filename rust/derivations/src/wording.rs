//! How things are said: days, numbers and lines.

use std::ops::RangeInclusive;

use yestrwyn_types::date;

/// A day as its number and its date.
pub fn day_of(day: u16) -> String {
    format!("day {day} ({})", date(day))
}

/// The day of a check; without one the verdict is the same on every day.
pub fn checked_on(day: Option<u16>) -> String {
    day.map_or_else(|| "every day".to_string(), day_of)
}

/// The days of an input clause.
pub fn days_of(days: Option<&RangeInclusive<u16>>) -> String {
    match days {
        None => "always in force".to_string(),
        Some(days) if days.start() == days.end() => format!("in force on {}", day_of(*days.start())),
        Some(days) => format!("in force from {} to {}", day_of(*days.start()), day_of(*days.end())),
    }
}

/// A number with commas between thousands.
pub fn grouped(number: usize) -> String {
    let digits = number.to_string();
    let mut text = String::new();
    for (place, digit) in digits.chars().enumerate() {
        if place > 0 && (digits.len() - place).is_multiple_of(3) {
            text.push(',');
        }
        text.push(digit);
    }
    text
}

/// So many of something: `1 literal`, `2 literals`.
pub fn counted(number: usize, what: &str) -> String {
    let ending = if number == 1 { "" } else { "s" };
    format!("{} {what}{ending}", grouped(number))
}

/// How often: `once`, `twice`, `3 times`.
pub fn times(number: usize) -> String {
    match number {
        1 => "once".to_string(),
        2 => "twice".to_string(),
        _ => format!("{} times", grouped(number)),
    }
}

/// Columns that a line of words has at most, where its words are shorter.
const COLUMNS: usize = 100;

/// A paragraph in lines, each indented by so many blanks.
pub fn wrapped(indent: usize, paragraph: &str) -> String {
    let (mut text, mut line) = (String::new(), String::new());
    for word in paragraph.split(' ') {
        if !line.is_empty() && indent + line.len() + 1 + word.len() > COLUMNS {
            text.push_str(&format!("{}{line}\n", " ".repeat(indent)));
            line.clear();
        }
        if !line.is_empty() {
            line.push(' ');
        }
        line.push_str(word);
    }
    text.push_str(&format!("{}{line}\n", " ".repeat(indent)));
    text
}
