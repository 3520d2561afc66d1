//! The stored vectors of both forms: which files there are, and what the check and the conversion to the other form give, as text.
//! The format is described in `README.md` beside the results.

use yestrwyn_second::{check_form_into, to_new_into, to_old_into};
use yestrwyn_types::limits::FILE_BYTES;
use yestrwyn_types::{Cells, Converted, Form, Tables};

use crate::examples::forms::{self, Formed};
use crate::random::damage_form;
use crate::stored::{form_lines, hashes, joined, line};
use crate::widening::{converting_file, new_file};

/// The name of the group, by which its results are stored.
pub const GROUP: &str = "forms";
/// Number of random files of each form, and of damaged ones.
const RANDOM_FILES: u64 = 50;
const DAMAGED_FILES: u64 = 25;

/// All files that are stored: the named ones, random ones and damaged ones.
pub fn files() -> Vec<Formed> {
    let mut all = forms::examples();
    for form in Form::ALL {
        all.extend((0..RANDOM_FILES).map(|seed| random_form(form, seed)));
        all.extend((0..DAMAGED_FILES).map(|seed| damaged_form(form, seed)));
    }
    all
}

/// The random file of a form and a seed, with a day near its days.
pub fn random_form(form: Form, seed: u64) -> Formed {
    let (name, (day, file)) = match form {
        Form::Old => ("converting", converting_file(seed)),
        Form::New => ("new", new_file(seed)),
    };
    Formed::on(form, day, &format!("{name}-{seed}"), file)
}

/// The same file, damaged.
pub fn damaged_form(form: Form, seed: u64) -> Formed {
    let Formed { name, day, file, .. } = random_form(form, seed);
    Formed { name: format!("damaged-{name}"), form, day, file: damage_form(form, &file, seed) }
}

/// A file in the other form, by the second implementation.
pub fn convert_into(form: Form, file: &[u8], tables: &mut Tables<'_>, output: &mut [u8]) -> Converted {
    match form {
        Form::Old => to_new_into(file, tables, output),
        Form::New => to_old_into(file, tables, output),
    }
}

/// What every file gives, as text.
pub fn expected(files: &[Formed]) -> String {
    let mut text = String::new();
    for file in files {
        describe(&mut text, file);
    }
    text
}

/// One vector's part of the text.
fn describe(text: &mut String, Formed { name, form, day, file }: &Formed) {
    let (mut cells, mut output) = (Cells::new(), vec![0; FILE_BYTES]);
    let answer = check_form_into(*form, *day, file, &mut cells.lend());
    let converted = convert_into(*form, file, &mut Cells::new().lend(), &mut output);
    line(text, "vector", name);
    line(text, "form", &form.number());
    line(text, "day", day);
    form_lines(text, "file", *form, file);
    line(text, "answer", &joined(answer.numbers()));
    line(text, "hashes", &hashes(&cells));
    line(text, "conversion", &joined(converted.numbers()));
    if let Some(written) = converted.length().and_then(|length| output.get(..length)) {
        form_lines(text, "converted", form.other(), written);
    }
}
