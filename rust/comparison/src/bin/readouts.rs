//! The programs `proofread` and `proofread_canonical` and the second implementation's `readout` and `canonical` on the same files
//! in one run: tables in Markdown with the processor time of two programs, their ratio, and how fast the readout of the first goes
//! to /dev/null. Each proved program is beside the second implementation's, and the second readout beside the first. All programs
//! are built before; their paths are the arguments:
//!
//! ```text
//! readouts FOLDER PROOFREAD READOUT PROOFREAD_CANONICAL CANONICAL
//! ```
//!
//! What all of them read, two bytes of day and the file, is written to the folder first.

use std::fs::{self, File};
use std::path::Path;
use std::process::{Command, Stdio};
use std::time::Duration;

use yestrwyn_comparison::clock::children_time;
use yestrwyn_comparison::rounds::Rounds;
use yestrwyn_vectors::examples::{canonical, deep, heavy, Example};
use yestrwyn_vectors::stored::groups;

/// A line of a table: its name, and the paths of the files that are read for it.
struct Line {
    name: String,
    paths: Vec<String>,
}

fn main() {
    let arguments: Vec<String> = std::env::args().skip(1).collect();
    let [folder, proofread, readout, proofread_canonical, canonical] = arguments.as_slice() else {
        eprintln!("usage: readouts FOLDER PROOFREAD READOUT PROOFREAD_CANONICAL CANONICAL");
        std::process::exit(1);
    };
    fs::create_dir_all(folder).expect("the folder");
    let lines: Vec<Line> = files()
        .into_iter()
        .map(|(name, examples)| Line {
            name,
            paths: examples.iter().map(|example| write(folder, example)).collect(),
        })
        .collect();
    table(&lines, ["`proofread`", "second"], [proofread, readout]);
    table(&lines, ["`proofread_canonical`", "second"], [proofread_canonical, canonical]);
    table(&lines, ["`proofread_canonical`", "`proofread`"], [proofread_canonical, proofread]);
}

/// A table of two programs, with the bytes that the first one writes.
fn table(lines: &[Line], [ours, theirs]: [&str; 2], programs: [&str; 2]) {
    println!("| file | {ours} | {theirs} | ratio | over ten rounds | bytes | MB/s |");
    println!("|---|---|---|---|---|---|---|");
    let mut together = Vec::new();
    for Line { name, paths } in lines {
        let rounds = Rounds::take(|| run(programs[0], paths), || run(programs[1], paths));
        let bytes: usize = paths.iter().map(|path| length(programs[0], path)).sum();
        println!("| {name} | {rounds} | {} | {} |", with_commas(bytes), speed(bytes, rounds.least()[0]));
        if paths.len() > 1 {
            together.push(rounds);
        }
    }
    println!("| all stored vectors together | {} | | |\n", Rounds::sum(&together));
}

/// The slow files one by one, and the stored vectors by group.
fn files() -> Vec<(String, Vec<Example>)> {
    let count = Example::new("a count to 4,000", deep::derivation(4000));
    let mut files = vec![(count.name.clone(), vec![count])];
    let heavy = heavy::examples().into_iter();
    files.extend(heavy.map(|example| (format!("`{}`", example.name), vec![example])));
    let wide = Example::new("6,678 variables in nearly every line", canonical::wide_lines(4000));
    files.push((wide.name.clone(), vec![wide]));
    let named = |name: &str| format!("stored vectors, a process for each: `{name}`");
    files.extend(groups().into_iter().map(|group| (named(group.name), group.examples)));
    files
}

/// Writes the day and the file of an example to the folder, and returns its path.
fn write(folder: &str, example: &Example) -> String {
    let name: String =
        example.name.chars().map(|c| if c.is_ascii_alphanumeric() { c } else { '-' }).collect();
    let path = Path::new(folder).join(name);
    fs::write(&path, example.input()).expect("a file is written");
    path.to_string_lossy().into_owned()
}

/// The processor time of a program on some files, its output thrown away.
fn run(program: &str, paths: &[String]) -> Duration {
    let start = children_time();
    for path in paths {
        let input = File::open(path).expect("the file");
        let status = Command::new(program).stdin(input).stdout(Stdio::null()).status();
        assert!(status.expect("the program runs").success(), "{program} on {path}");
    }
    children_time().saturating_sub(start)
}

/// The length of a readout.
fn length(program: &str, path: &str) -> usize {
    let input = File::open(path).expect("the file");
    let output = Command::new(program).stdin(input).output().expect("the program runs");
    output.stdout.len()
}

/// Megabytes in a second, where there are some megabytes.
fn speed(bytes: usize, time: Duration) -> String {
    let megabytes = bytes as f64 / 1e6;
    if megabytes < 1.0 {
        return String::new();
    }
    format!("{:.0}", megabytes / time.as_secs_f64())
}

/// A number with a comma before every three digits.
fn with_commas(number: usize) -> String {
    let digits = number.to_string();
    let mut text = String::new();
    for (place, digit) in digits.chars().enumerate() {
        if place > 0 && (digits.len() - place).is_multiple_of(3) {
            text.push(',');
        }
        text.push(digit);
    }
    text
}
