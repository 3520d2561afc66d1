//! The second readout by another way: the text of the first, with each line's variables numbered anew where they stand in it.
//! What `~` hides is not in the text.

use std::collections::HashMap;

/// The second readout, made of the first.
pub fn rewritten(readout: &str) -> String {
    readout.split_inclusive('\n').map(line).collect()
}

/// A line with its words `vN.K` numbered by first appearance. No other word begins with `v`.
fn line(line: &str) -> String {
    let mut numbers = HashMap::new();
    let mut parts = line.split('v');
    let mut text = parts.next().unwrap_or("").to_string();
    for part in parts {
        let (variable, rest) = variable_and_rest(part);
        let next = numbers.len();
        text += &format!("v{}{rest}", numbers.entry(variable).or_insert(next));
    }
    text
}

/// Number, dot and index at the beginning of a text, and what comes after them.
pub fn variable_and_rest(part: &str) -> (&str, &str) {
    let end = part.find(|c: char| !c.is_ascii_digit() && c != '.').unwrap_or(part.len());
    part.split_at(end)
}
