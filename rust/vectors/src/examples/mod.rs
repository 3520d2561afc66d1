//! Proof files with a name: the case sheet, examples from the literature, files at the edge of each
//! limit, and files refused for each reason. Tests say what they should give; the vectors store it.

pub mod boards;
pub mod canonical;
pub mod cases;
pub mod days;
pub mod deep;
pub mod edges;
pub mod forms;
pub mod group_theory;
pub mod heavy;
pub mod kowalski;
pub mod merges;
pub mod outlines;
pub mod refusals;
mod refutations;
pub mod repeats;
pub mod resolution_rules;
pub mod several;
pub mod structure_sharing;
pub mod trims;

/// A file, its name, and the day that it is checked on.
#[derive(Clone, Debug)]
pub struct Example {
    pub name: String,
    pub day: u16,
    pub file: Vec<u8>,
}

impl Example {
    /// A named file on day 0.
    pub fn new(name: &str, file: Vec<u8>) -> Example {
        Example { name: name.to_string(), day: 0, file }
    }

    /// A named file on a day, which its name says as well.
    pub fn on(day: u16, name: &str, file: Vec<u8>) -> Example {
        Example { name: format!("{name}-on-{day}"), day, file }
    }

    /// What the program `proofread` reads: two bytes of day, low byte first, then the file.
    pub fn input(&self) -> Vec<u8> {
        [&self.day.to_le_bytes()[..], &self.file].concat()
    }
}

/// Every example from the literature.
pub fn published() -> Vec<Example> {
    let mut all = structure_sharing::examples();
    all.extend(group_theory::examples());
    all.extend(resolution_rules::examples());
    all.extend(kowalski::examples());
    all.extend(resolution_rules::implicit_factorization());
    all
}
