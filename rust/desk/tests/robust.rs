//! Every stored vector through every subcommand: each run ends with a status, and an error is one line.

mod common;

use common::{command, Folder, Run};
use yestrwyn_vectors::stored::groups;

/// The subcommands that read one file and write nothing else.
const SUBCOMMANDS: [&[&str]; 9] = [
    &["check", "--json"],
    &["readout"],
    &["readout", "--canonical"],
    &["explain"],
    &["rules"],
    &["stats"],
    &["draw"],
    &["draw", "--svg"],
    &["audit"],
];

/// Runs a subcommand on a file, and looks at its status and its errors.
fn ends(words: &[&str], day: u16, file: &str, name: &str) {
    let day = format!("--day={day}");
    let days = (words[0] != "stats").then_some(day.as_str());
    let output = command(words.iter().copied().chain(days).chain([file])).output().expect("it runs");
    let Some(status) = output.status.code() else { panic!("{words:?} of {name}: {}", output.status) };
    let stderr = String::from_utf8(output.stderr).expect("text");
    let one_line = stderr.is_empty() || stderr.starts_with("yestrwyn: ") && stderr.lines().count() == 1;
    assert!(status < 3 && one_line, "{words:?} of {name}: {status}, {stderr}");
}

#[test]
fn every_vector_through_every_subcommand() {
    let folder = Folder::new();
    for group in groups() {
        // Of the many random files some do.
        let step = if group.examples.len() > 100 { 31 } else { 1 };
        for example in group.examples.iter().step_by(step) {
            let file = folder.write("file", &example.file).display().to_string();
            for words in SUBCOMMANDS {
                ends(words, example.day, &file, &example.name);
            }
        }
    }
}

#[test]
fn every_vector_has_its_verdict() {
    let folder = Folder::new();
    for group in groups() {
        for (number, example) in group.examples.iter().enumerate() {
            folder.write(format!("{}/{number:04}", group.name), &example.file);
        }
        let run: Run = common::run(["check", "--day=0", &folder.at(group.name).display().to_string()]);
        let right =
            group.examples.iter().map(|example| yestrwyn_second::check(0, &example.file).verdict.to_string());
        for ((line, right), example) in run.stdout.lines().zip(right).zip(&group.examples) {
            let verdict = line.split(": ").nth(1).unwrap_or_default();
            assert_eq!(verdict, right, "{}", example.name);
        }
        assert_eq!(run.stdout.lines().count(), group.examples.len());
    }
}
