//! `yestrwyn explain`, `rules`, `draw` and `audit`: what is in a proof.

mod common;

use common::{example, run, run_with, Folder, Run};

/// A run that ends with a line of error and a status.
fn ends(run: &Run, status: i32, line: &str) {
    assert_eq!((run.status, run.stdout.as_str()), (status, ""));
    assert_eq!(run.stderr, format!("yestrwyn: {line}\n"));
}

const SIGNS: &str =
    "examples/refused.proof: refused 8 at 22: the signs do not fit, or a literal is factored with itself";
const ASKS: &str = "a rule that it uses has days, and the verdict can depend on the day: give --day";

#[test]
fn verdicts_are_explained() {
    let refused = run(["explain", "--names", "examples/refused.names", "examples/refused.proof"]);
    assert_eq!((refused.status, refused.stderr.as_str()), (2, ""));
    assert!(refused.stdout.starts_with("refused 8 at 22\n\n"));
    for part in
        ["05 00 00 00 01 00 04 00 01 00", "+flies(Amber,v0.1)", "+flies(Blue,leg-1)", "how to mend it"]
    {
        assert!(refused.stdout.contains(part), "{part}");
    }
    let accepted = run(["explain", "examples/curfew.proof"]);
    assert!(accepted.status == 0 && accepted.stdout.starts_with("accepted 11\n\n"));
    assert_eq!(run(["explain", "examples/rulebook.proof"]).status, 1);
    let season = run(["explain", "--day", "0", "examples/season.proof"]);
    assert!(season.status == 1 && season.stdout.contains("not in force"), "{}", season.stdout);
    run(["explain", "examples/season.proof"]).fails(&format!("examples/season.proof: {ASKS}"));
    let short = run_with(["explain", "-"], b"short");
    assert!(short.status == 2 && short.stdout.starts_with("refused 1 at 0\n\n"));
}

#[test]
fn every_refusal_is_explained() {
    for seed in 0..200 {
        let file = yestrwyn_vectors::damage(&yestrwyn_vectors::random_file_of(seed, 40), seed);
        let verdict = yestrwyn_second::check(0, &file).verdict.to_string();
        let run = run_with(["explain", "--day", "0", "-"], &file);
        assert!(
            run.stdout.starts_with(&format!("{verdict}\n\n")) && run.stderr.is_empty(),
            "{seed}: {run:?}"
        );
    }
}

#[test]
fn rules_that_are_used() {
    let run = run(["rules", "examples/sheets.proof"]);
    assert_eq!((run.status, run.stderr.as_str()), (0, ""));
    assert!(run.stdout.starts_with("clause 3: 3 uses of 2 input clauses\n"), "{}", run.stdout);
    let names = common::run(["rules", "--names", "examples/sheets.names", "examples/sheets.proof"]);
    assert!(names.stdout.contains("+signs(Vale,v0.1)"), "{}", names.stdout);
    ends(&common::run(["rules", "examples/refused.proof"]), 2, SIGNS);
    ends(
        &common::run(["rules", "examples/rulebook.proof"]),
        1,
        "examples/rulebook.proof: it is open, so that there is no proof in it",
    );
}

#[test]
fn rules_against_a_rulebook() {
    let against = |day: &str, file: &str, book: &str| {
        run([
            "rules",
            "--day",
            day,
            &format!("examples/{file}.proof"),
            "--against",
            &format!("examples/{book}.proof"),
        ])
    };
    // The facts of the trip are in no rulebook, and all of a file is in itself.
    let declined = against("21000", "declined", "rulebook");
    assert_eq!(declined.status, 1);
    assert_eq!(declined.stdout.matches("  in the rulebook: clause ").count(), 2);
    assert_eq!(declined.stdout.matches("  not in the rulebook\n").count(), 3);
    assert_eq!(against("21000", "declined", "merged").status, 0);
    assert_eq!(against("21000", "archive", "archive").status, 0);
    ends(&against("0", "curfew", "refused"), 2, SIGNS);
    let differ = against("0", "curfew", "rulebook");
    assert!(
        differ.status == 3 && differ.stderr.starts_with("yestrwyn: examples/rulebook.proof: its symbols"),
        "{differ:?}"
    );
    run(["rules", "examples/curfew.proof", "--against", "missing"]).fails("missing: there is no such file");
}

#[test]
fn a_rule_with_other_days_is_not_the_rulebooks() {
    // The curfew of the rulebook without its days.
    let (folder, mut book) = (Folder::new(), example("rulebook.proof"));
    let window = book.chunks(16).position(|record| record[0] == 8).expect("a record of days") * 16;
    book.drain(window..window + 16);
    let trip = example("trip.proof");
    let merged = yestrwyn_second::merge(&book, &trip).expect("merged");
    let rules = folder.write("book", merged);
    let words = ["rules", "--day=21000", "examples/declined.proof", "--against"].map(AsRef::as_ref);
    let run = run(words.into_iter().chain([rules.as_os_str()]));
    assert!(
        run.status == 1 && run.stdout.contains("in the rulebook with other days: clause 1"),
        "{}",
        run.stdout
    );
}

#[test]
fn drawings() {
    let dot = run(["draw", "--names", "examples/curfew.names", "examples/curfew.proof"]);
    assert!(dot.status == 0 && dot.stdout.starts_with("digraph ") && dot.stdout.contains("departs(21:40)"));
    let svg = run(["draw", "--svg", "--day", "2027-07-01", "examples/season.proof"]);
    assert!(svg.status == 0 && svg.stdout.starts_with("<svg ") && svg.stdout.ends_with("</svg>\n"));
    ends(&run(["draw", "examples/refused.proof"]), 2, SIGNS);
    ends(
        &run(["draw", "--day=0", "examples/season.proof"]),
        1,
        "examples/season.proof: it is open, so that there is no proof in it",
    );
    run(["draw", "examples/season.proof"]).fails(&format!("examples/season.proof: {ASKS}"));
}

#[test]
fn instances() {
    let run = run(["audit", "--names", "examples/sheets.names", "examples/sheets.proof"]);
    assert_eq!((run.status, run.stderr.as_str()), (0, ""));
    assert!(
        run.stdout.contains("c atom 1 = signs(Vale,Vale)\n")
            && run.stdout.ends_with("p cnf 1 3\n-1 -1 0\n1 1 0\n1 1 0\n")
    );
    ends(&common::run(["audit", "examples/refused.proof"]), 2, SIGNS);
    ends(
        &common::run(["audit", "examples/covers.proof"]),
        1,
        "examples/covers.proof: it is open, so that there is no proof in it",
    );
    common::run(["audit", "examples/declined.proof"]).fails(&format!("examples/declined.proof: {ASKS}"));
}

#[test]
fn solvers() {
    let folder = Folder::new();
    // A solver that is a script: it finds no model of the problem of three clauses, and one of any other.
    let script = folder.write("solver", "grep -q '^p cnf 1 3$' \"$2\" && exit 20; exit 10\n");
    let solver = format!("sh {} --quiet", script.display());
    let audit =
        |file: &str, solver: &str| run(["audit", "--solver", solver, &format!("examples/{file}.proof")]);
    let agrees = audit("sheets", &solver);
    let line = "examples/sheets.proof: the solver agrees: the 3 instances have no model\n";
    assert_eq!((agrees.status, agrees.stdout.as_str(), agrees.stderr.as_str()), (0, line, ""));
    let disagrees = "examples/curfew.proof: the solver disagrees: it says that the instances have a model";
    ends(&audit("curfew", &solver), 2, disagrees);
    audit("curfew", "true").fails("true: it gives no answer: exit status: 0");
    // Some say it in a line, and one that says two things has said nothing.
    let saying = |lines: &str, status: u8| {
        let script = folder.write("saying", format!("printf '{lines}'\nexit {status}\n"));
        format!("sh {}", script.display())
    };
    for lines in ["c a\\ns UNSATISFIABLE\\n", "UNSATISFIABLE"] {
        let agrees = audit("sheets", &saying(lines, 0));
        assert_eq!((agrees.status, agrees.stdout.as_str()), (0, line));
    }
    ends(&audit("curfew", &saying("s SATISFIABLE\\nv 1 0\\n", 0)), 2, disagrees);
    let both = saying("s SATISFIABLE\\n", 20);
    audit("curfew", &both)
        .fails(&format!("{both}: it says both that there is a model and that there is none"));
    audit("curfew", "no-such-solver").fails("no-such-solver: it is not run: there is no such file");
    audit("curfew", " ").fails("--solver names a program: see 'yestrwyn help audit'");
}
