//! Records of kind 8 that are refused with the reason in their name, and some that stand.

use yestrwyn_types::record::kind::WINDOW;
use yestrwyn_types::record::Record;

use super::super::refusals::{unused_bytes_of, with};
use super::Example;
use crate::examples::refutations::refuted;
use crate::sketch::Sketch;

/// All of them; the day alters none of the refusals.
pub fn examples() -> Vec<Example> {
    let mut all = Vec::new();
    for day in [0, 15] {
        let examples = records().into_iter().chain(derived());
        all.extend(examples.map(|example| Example::on(day, &example.name, example.file)));
    }
    all.extend(unused_bytes_of("window", Record::new(WINDOW, 0, &[0, 10, 20]), 4));
    all
}

/// In the standing file clauses 0 to 5 are input clauses, and there are no others.
fn records() -> Vec<Example> {
    let window = |name: &str, fields: [u16; 7]| with(name, WINDOW, 0, fields);
    vec![
        window("stands-window", [0, 10, 20, 0, 0, 0, 0]),
        window("stands-window-of-the-empty-clause", [5, 10, 20, 0, 0, 0, 0]),
        window("stands-window-of-a-day", [0, 10, 10, 0, 0, 0, 0]),
        window("4-window-field-d", [0, 10, 20, 1, 0, 0, 0]),
        with("4-window-count", WINDOW, 1, [0, 10, 20, 0, 0, 0, 0]),
        with("4-before-5-window", WINDOW, 1, [6, 10, 20, 0, 0, 0, 0]),
        window("4-before-5-window-field-g", [6, 10, 20, 0, 0, 0, 1]),
        window("4-before-16-window", [0, 20, 10, 0, 0, 0, 1]),
        window("5-window-of-the-next-clause", [6, 10, 20, 0, 0, 0, 0]),
        window("5-window-of-clause-65535", [65_535, 10, 20, 0, 0, 0, 0]),
        window("5-before-16-window", [6, 20, 10, 0, 0, 0, 0]),
        window("16-window", [0, 20, 10, 0, 0, 0, 0]),
        window("16-window-by-a-day", [5, 16, 15, 0, 0, 0, 0]),
        window("16-window-from-the-last-day", [0, 65_535, 0, 0, 0, 0, 0]),
        window("16-window-low-bytes-not-crossed", [0, 256, 255, 0, 0, 0, 0]),
        with("3-window-of-kind-9", 9, 0, [0, 10, 20, 0, 0, 0, 0]),
    ]
}

/// Windows of a derived clause and of one that comes later; and crossed days after a window that stands.
fn derived() -> Vec<Example> {
    let example = |name: &str, mut file: Sketch, clause: u16, first: u16, last: u16| {
        file.window(clause, first, last);
        file.symbol(1);
        Example::new(name, file.finish())
    };
    let first_record = example("5-window-before-any-clause", Sketch::new(), 0, 10, 20);
    let mut later = Sketch::new();
    later.window(0, 10, 20);
    later.clause(&[]);
    let mut again = refuted(1);
    again.window(0, 10, 20);
    vec![
        example("5-window-of-a-derived-clause", refuted(1), 2, 10, 20),
        example("5-before-16-window-of-a-derived-clause", refuted(1), 2, 20, 10),
        first_record,
        Example::new("5-window-before-its-clause", later.finish()),
        example("16-window-after-one-that-stands", again, 0, 40, 30),
    ]
}
