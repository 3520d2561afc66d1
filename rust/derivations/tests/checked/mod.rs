//! Files for tests, checked by the second implementation.
#![allow(dead_code)]

use std::sync::OnceLock;

use yestrwyn_derivations::Model;
use yestrwyn_types::Form;
use yestrwyn_vectors::examples::{trims, Example};
use yestrwyn_vectors::outcome::{outcome_on, Outcome};
use yestrwyn_vectors::stored::groups;

/// Every stored vector of the old form, checked on its day.
pub fn vectors() -> &'static [Checked] {
    static VECTORS: OnceLock<Vec<Checked>> = OnceLock::new();
    VECTORS.get_or_init(|| {
        let stored = groups().into_iter().flat_map(|group| group.examples);
        stored.chain(trims::examples()).map(|example| Checked::new(&example)).collect()
    })
}

/// A file with what its check gives.
pub struct Checked {
    /// Its name.
    pub name: String,
    /// Its bytes.
    pub file: Vec<u8>,
    /// The day on which it was checked.
    pub day: u16,
    /// Answer, tables, works and readouts.
    pub outcome: Outcome,
}

impl Checked {
    /// A named file, checked on its day.
    pub fn new(example: &Example) -> Checked {
        let outcome = outcome_on(example.day, &example.file);
        Checked { name: example.name.clone(), file: example.file.clone(), day: example.day, outcome }
    }

    /// A file of the folder `examples`, checked on a day.
    pub fn stored(name: &str, day: u16) -> Checked {
        let path = format!("{}/../../examples/{name}.proof", env!("CARGO_MANIFEST_DIR"));
        let file = std::fs::read(&path).unwrap_or_else(|error| panic!("{path}: {error}"));
        Checked::new(&Example { name: name.to_string(), day, file })
    }

    /// Its model.
    pub fn model(&self) -> Model<'_> {
        let model = Model::read(Form::Old, &self.file, &self.outcome.answer, &self.outcome.cells);
        model.unwrap_or_else(|| panic!("{} has no model", self.name))
    }
}
