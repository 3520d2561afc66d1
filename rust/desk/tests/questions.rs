//! `yestrwyn stats` and `covers`.

mod common;

use common::{example, run, run_with};
use yestrwyn_vectors::outcome::outcome;

#[test]
fn one_pair() {
    for (c, d, status, line) in [
        ("0", "1", 0, "clause 0 covers clause 1: literal 1 becomes 2, literal 2 becomes 1\n"),
        ("1", "0", 1, "clause 1 does not cover clause 0\n"),
        ("2", "2", 0, "clause 2 covers clause 2: literal 1 becomes 1, literal 2 becomes 2\n"),
    ] {
        let run = run(["covers", "examples/covers.proof", c, d]);
        assert_eq!((run.status, run.stdout.as_str(), run.stderr.as_str()), (status, line, ""));
    }
}

#[test]
fn every_pair() {
    let run = run(["covers", "examples/covers.proof"]);
    let line = "clause 0 covers clause 1: literal 1 becomes 2, literal 2 becomes 1\n";
    assert_eq!((run.status, run.stdout.as_str()), (0, line));
    let none = common::run(["covers", "examples/duty.proof"]);
    assert_eq!((none.status, none.stdout.as_str()), (0, "no input clause covers another\n"));
}

#[test]
fn every_pair_of_random_files() {
    let mut found = 0;
    for seed in 0..100 {
        let file = yestrwyn_vectors::covering_file(seed);
        let answer = yestrwyn_second::check(0, &file);
        let clauses = 0..answer.clauses;
        let pairs =
            clauses.clone().flat_map(|c| clauses.clone().map(move |d| (c, d))).filter(|(c, d)| c != d);
        let right = pairs.filter(|&(c, d)| yestrwyn_second::covers(&file, c, d).is_yes());
        let right: Vec<String> = right.map(|(c, d)| format!("clause {c} covers clause {d}")).collect();
        let run = run_with(["covers", "-"], &file);
        if run.status == 0 {
            let told = run.stdout.lines().filter_map(|line| Some(line.split_once(": ")?.0.to_string()));
            assert_eq!(told.collect::<Vec<_>>(), right, "{seed}");
            found += right.len();
        }
    }
    assert!(found > 40, "{found}");
}

#[test]
fn pairs_that_are_refused() {
    let refused = |words: &[&str], line: &str| {
        let run = run(words);
        assert_eq!((run.status, run.stdout.as_str(), run.stderr), (2, "", format!("yestrwyn: {line}\n")));
    };
    let none = "the file does not stand, or a clause named is not an input clause of it";
    refused(
        &["covers", "examples/covers.proof", "0", "3"],
        &format!("examples/covers.proof: refused 15 at 0: {none}"),
    );
    refused(
        &["covers", "examples/curfew.proof", "0", "6"],
        &format!("examples/curfew.proof: refused 15 at 0: {none}"),
    );
    let signs =
        "examples/refused.proof: refused 8 at 22: the signs do not fit, or a literal is factored with itself";
    refused(&["covers", "examples/refused.proof"], signs);
    refused(&["covers", "examples/refused.proof", "0", "1"], signs);
    run(["covers", "a", "0"])
        .fails("a file is wanted, alone or with two clauses: see 'yestrwyn help covers'");
    run(["covers", "examples/covers.proof", "0", "x"])
        .fails("'x' is no number of a clause: see 'yestrwyn help covers'");
}

/// The number of a line of the table, and where it is.
fn line<'a>(table: &'a str, what: &str) -> (usize, &'a str) {
    let line =
        table.lines().find_map(|line| line.strip_prefix(what)).unwrap_or_else(|| panic!("{what} in {table}"));
    let line = line.trim_start();
    let (number, rest) = line.split_once(' ').unwrap_or((line, ""));
    (number.parse().expect("a number"), rest)
}

#[test]
fn what_a_file_has() {
    let run = run(["stats", "examples/curfew.proof"]);
    assert_eq!((run.status, run.stderr.as_str()), (0, ""));
    assert!(run.stdout.starts_with("examples/curfew.proof: stands\n"));
    for (what, number, rest) in [
        ("records", 38, "of  4096"),
        ("symbols", 8, ""),
        ("rows that are variables", 2, ""),
        ("rows that are applications", 16, ""),
        ("input clauses", 6, ""),
        ("steps that resolve one literal", 6, ""),
        ("arity of a symbol", 2, "of     6  record 1"),
        ("variable number", 1, "of    63  record 22"),
        ("literals of an input clause", 2, "of     7  record 12"),
        ("literals of a derived clause", 2, "of   128  clause 6"),
        ("maximum index of a clause", 9, "of  4096  clause 11"),
        ("work of a step", 6, "of 16384  record 32"),
        ("bindings", 5, "of  8192"),
    ] {
        assert_eq!(line(&run.stdout, what), (number, rest), "{what}");
    }
    let refused = common::run(["stats", "examples/refused.proof"]);
    assert_eq!((refused.status, line(&refused.stdout, "records").0), (2, 22));
    let season = common::run(["stats", "examples/season.proof"]);
    assert_eq!((season.status, line(&season.stdout, "records of days").0), (0, 2));
}

#[test]
fn work_is_that_of_the_second_implementation() {
    let files = (0..40).map(yestrwyn_vectors::random_file).chain((0..10).map(yestrwyn_vectors::several_file));
    for file in files.chain(["duty.proof", "sheets.proof", "declined.proof"].map(example)) {
        let run = run_with(["stats", "-"], &file);
        let outcome = outcome(&file);
        let works = || outcome.works.iter().map(|step| step.work as usize);
        assert_eq!(line(&run.stdout, "work of a step").0, works().max().unwrap_or(0));
        assert_eq!(line(&run.stdout, "work of all steps").0, works().sum());
        assert_eq!(line(&run.stdout, "bindings").0, usize::from(outcome.answer.bindings));
    }
}
