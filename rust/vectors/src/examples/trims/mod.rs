//! Files that are trimmed, by name, each with a day: what is kept and what goes, numbers that close up, and what is refused.

mod days;
mod kept;
mod lengths;
mod refusals;
mod repeats;

use super::Example;
use crate::sketch::Sketch;

pub use lengths::{many_rules, many_steps};

/// All of them.
pub fn examples() -> Vec<Example> {
    let mut all = kept::examples();
    all.extend(repeats::examples());
    all.extend(days::examples());
    all.extend(lengths::examples());
    all.extend(refusals::examples());
    all
}

/// A file on a day, which its name does not say.
fn on(day: u16, name: &str, file: Sketch) -> Example {
    Example { name: name.to_string(), day, file: file.finish() }
}
