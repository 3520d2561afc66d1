//! Files of both forms, by name, each with a day: days beside the clause, what a conversion makes of a file, what is refused, and
//! lengths.

mod days;
mod lengths;
mod refusals;

use yestrwyn_types::Form;

pub use lengths::{many_clauses, many_symbols};

/// A file of a form, its name, and the day that it is checked on.
#[derive(Clone, Debug)]
pub struct Formed {
    pub name: String,
    pub form: Form,
    pub day: u16,
    pub file: Vec<u8>,
}

impl Formed {
    /// A named file on day 0.
    pub fn new(form: Form, name: &str, file: Vec<u8>) -> Formed {
        Formed { name: name.to_string(), form, day: 0, file }
    }

    /// A named file on a day, which its name says as well.
    pub fn on(form: Form, day: u16, name: &str, file: Vec<u8>) -> Formed {
        Formed { name: format!("{name}-on-{day}"), form, day, file }
    }
}

/// All of them.
pub fn examples() -> Vec<Formed> {
    let mut all = days::examples();
    all.extend(refusals::examples());
    all.extend(lengths::examples());
    all
}
