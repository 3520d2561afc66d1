//! Ten thousand small files.

mod common;

use common::json::{get, object, word};
use common::{example, run, Folder};
use yestrwyn_types::Verdict;
use yestrwyn_vectors::dated::with_windows;
use yestrwyn_vectors::{damage, random_file_of, several_file_of};

const FILES: u64 = 10_000;
const DAY: u16 = 100;

/// A file of one sort or another: with days, with steps on several literals, a trip, or damaged.
fn file(seed: u64) -> Vec<u8> {
    let trip = ["curfew", "duty", "permit", "sheets", "declined"][seed as usize % 5];
    match seed % 4 {
        0 => with_windows(&random_file_of(seed, 20), DAY, seed),
        1 => several_file_of(seed, 30),
        2 => example(&format!("{trip}.proof")),
        _ => damage(&random_file_of(seed, 25), seed),
    }
}

/// Where a file is in its folder, so that files are in the order of their seeds.
fn name(seed: u64) -> String {
    format!("{:02}/{seed:05}.proof", seed / 500)
}

#[test]
fn ten_thousand_small_files() {
    let (folder, mut right) = (Folder::new(), Vec::new());
    for seed in 0..FILES {
        let file = file(seed);
        folder.write(name(seed), &file);
        right.push(yestrwyn_second::check(DAY, &file).verdict);
    }
    let run = run(["check", "--day", &DAY.to_string(), "--json", &folder.text()]);
    let told: Vec<_> = run.stdout.lines().map(object).collect();
    assert_eq!(told.len(), right.len());
    for (seed, (line, verdict)) in (0..).zip(told.iter().zip(&right)) {
        let name = format!("{}/{}", folder.text(), name(seed));
        assert_eq!(get(line, "file"), &word(&name));
        let kind = verdict.to_string();
        assert_eq!(get(line, "verdict"), &word(kind.split(' ').next().unwrap_or_default()), "{name}");
    }
    let count = |kind: fn(&Verdict) -> bool| right.iter().filter(|verdict| kind(verdict)).count();
    let accepted = count(|verdict| verdict.is_accepted());
    let open = count(|verdict| *verdict == Verdict::Open);
    let refused = count(|verdict| matches!(verdict, Verdict::Refused { .. }));
    assert!(accepted > 1000 && open > 100 && refused > 100, "{accepted} {open} {refused}");
    let end = format!(": {accepted} accepted, {open} open, {refused} refused, 0 failed\n");
    assert!(
        run.status == 2 && run.stderr.ends_with(&end) && run.stderr.lines().count() == 1,
        "{}",
        run.stderr
    );
}
