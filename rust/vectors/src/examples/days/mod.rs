//! Rules in force: files with records of kind 8, each on a day.

mod orders;
mod refusals;
mod windows;

use super::{cases, deep, Example};
use crate::sketch::Sketch;

/// All of them: windows and the days at their ends, windows superseded and clauses out of force, refused records, and old
/// files on other days.
pub fn examples() -> Vec<Example> {
    let mut all = windows::examples();
    all.extend(orders::examples());
    all.extend(refusals::examples());
    all.extend(old_files());
    all.extend(long_files());
    all
}

/// The case sheet on a few days: no day alters an answer.
fn old_files() -> Vec<Example> {
    let on = |day: u16| {
        let dated = move |case: Example| Example::on(day, &format!("case-{}", case.name), case.file);
        cases::sheet().into_iter().map(dated)
    };
    [0, 1, 256, 21_000, 65_535].into_iter().flat_map(on).collect()
}

/// Three hundred steps from two clauses, of which the first is out of force; and a clause with as many windows as there are
/// records, of which the last counts.
fn long_files() -> Vec<Example> {
    let mut steps = deep::derivation(300);
    steps.extend_from_slice(&window_bytes(0, 10, 20));
    let mut all = on_days("three-hundred-steps", &steps, &[9, 10, 20, 21]);
    let mut file = Sketch::new();
    let clause = file.clause(&[]);
    for day in 1..=4095 {
        file.window(clause, day, day);
    }
    all.extend(on_days("window-in-every-record", &file.finish(), &[4094, 4095]));
    all
}

/// One file on several days.
fn on_days(name: &str, file: &[u8], days: &[u16]) -> Vec<Example> {
    days.iter().map(|&day| Example::on(day, name, file.to_vec())).collect()
}

/// A record of kind 8 in bytes.
fn window_bytes(clause: u16, first: u16, last: u16) -> Vec<u8> {
    let mut file = Sketch::new();
    file.window(clause, first, last);
    file.finish()
}
