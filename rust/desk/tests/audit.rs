//! Every accepted vector audited by SAT solvers, through the built command. Where a solver is not installed, a line says so.

mod common;

use std::io::{self, Write};
use std::process::{Command, Stdio};

use common::run_with;
use yestrwyn::Verdict;
use yestrwyn_vectors::examples::{trims, Example};
use yestrwyn_vectors::stored::groups;

/// The solvers, and the words that are given to them.
const SOLVERS: [&str; 2] = ["minisat -verb=0", "cadical -q -n"];

/// Is a solver installed? If not, a line says that it is not asked.
fn is_installed(solver: &str) -> bool {
    let program = solver.split(' ').next().expect("a program");
    let found = Command::new(program).arg("--help").stdin(Stdio::null()).output().is_ok();
    if !found {
        // The macros that print are silenced in a test that passes.
        let line = format!("not run: audits of all vectors by {program}, which is not installed\n");
        let _ = io::stderr().write_all(line.as_bytes());
    }
    found
}

/// The vectors that are accepted on their day.
fn accepted() -> Vec<Example> {
    let vectors = groups().into_iter().flat_map(|group| group.examples).chain(trims::examples());
    let is_accepted = |example: &Example| {
        matches!(yestrwyn_second::check(example.day, &example.file).verdict, Verdict::Accepted(_))
    };
    vectors.filter(is_accepted).collect()
}

#[test]
fn solvers_agree_on_every_accepted_vector() {
    let vectors = accepted();
    assert!(vectors.len() > 200, "{} vectors", vectors.len());
    for solver in SOLVERS.into_iter().filter(|solver| is_installed(solver)) {
        for Example { name, day, file } in &vectors {
            let audit = run_with(["audit", "--day", &day.to_string(), "--solver", solver, "-"], file);
            let agrees = audit.stdout.starts_with("standard input: the solver agrees: the ");
            assert!(audit.status == 0 && agrees, "{name} by {solver}: {audit:?}");
        }
    }
}
