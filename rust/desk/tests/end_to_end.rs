//! From a problem to an audited archive, through the built command: problem, SPASS, converter, proved check, trim, and audit by a SAT
//! solver. Where SPASS is not installed, the stored proofs are taken, and where no solver is, nothing is audited; `solvers.sh` says so.

mod common;

use std::ffi::OsStr;
use std::fs;
use std::path::{Path, PathBuf};
use std::process::{Command, Stdio};

use common::{root, run, Folder, Run};

/// The solvers that an archive is audited with.
const SOLVERS: [&str; 2] = ["minisat", "cadical"];

/// The folder of the problems.
fn problems() -> PathBuf {
    root().join("rust/spass/problems")
}

/// The files of an extension in the folder of the problems.
fn files(extension: &str) -> Vec<PathBuf> {
    let entries = fs::read_dir(problems()).expect("a folder").map(|entry| entry.expect("an entry").path());
    let mut files: Vec<PathBuf> =
        entries.filter(|path| path.extension() == Some(OsStr::new(extension))).collect();
    files.sort();
    files
}

/// Is a program installed?
fn is_installed(program: &str) -> bool {
    let found = Command::new(program).arg("--help").stdin(Stdio::null()).output().is_ok();
    if !found {
        eprintln!("{program} is not installed");
    }
    found
}

/// Runs a subcommand that must succeed.
fn done(words: &[&OsStr]) -> Run {
    let run = run(words);
    assert!(run.status == 0 && run.stderr.is_empty(), "{words:?}: {run:?}");
    run
}

/// Words for the command.
fn words<'a>(text: &'a [&'a str]) -> Vec<&'a OsStr> {
    text.iter().map(OsStr::new).collect()
}

/// The clause with which a file is accepted, after the name of the file.
fn accepted(file: &Path) -> u16 {
    let printed = done(&words(&["check", "--", file.to_str().expect("text")])).stdout;
    let (_, verdict) = printed.trim_end().rsplit_once(": ").expect("a verdict");
    verdict.strip_prefix("accepted ").and_then(|clause| clause.parse().ok()).expect("accepted")
}

/// A proof converted, checked, trimmed and audited in a folder.
fn all_the_way(folder: &Folder, proof: &Path, solvers: &[&str]) {
    let [file, names, archive] =
        ["file", "names", "archive"].map(|name| folder.at(name).display().to_string());
    let proof = proof.to_str().expect("text");
    let converted = done(&words(&["from-spass", proof, "-o", &file, "--names", &names])).stdout;
    assert!(converted.starts_with(&format!("{file}: accepted ")), "{converted}");
    let clause = accepted(Path::new(&file));
    let readout = done(&words(&["readout", "--names", &names, &file])).stdout;
    assert!(readout.starts_with(&format!("accepted {clause}\n")), "{proof}: {readout}");
    done(&words(&["trim", &file, "-o", &archive]));
    let last = yestrwyn_second::check(0, &fs::read(&archive).expect("a file")).clauses - 1;
    assert_eq!(accepted(Path::new(&archive)), last, "{proof}");
    for solver in solvers {
        let audit = done(&words(&["audit", &archive, "--solver", solver])).stdout;
        assert!(audit.contains("the solver agrees"), "{proof}: {audit}");
    }
}

#[test]
fn stored_proofs_all_the_way() {
    let solvers: Vec<&str> = SOLVERS.into_iter().filter(|solver| is_installed(solver)).collect();
    let stored = files("spass");
    assert!(stored.len() >= 15);
    let folder = Folder::new();
    stored.iter().for_each(|proof| all_the_way(&folder, proof, &solvers));
}

#[test]
fn new_proofs_all_the_way() {
    if !is_installed("SPASS") {
        return;
    }
    let solvers: Vec<&str> = SOLVERS.into_iter().filter(|solver| is_installed(solver)).collect();
    let folder = Folder::new();
    for problem in files("dfg") {
        let printed = Command::new("SPASS").arg("-DocProof").arg(&problem).output().expect("SPASS runs");
        all_the_way(&folder, &folder.write("proof", printed.stdout), &solvers);
    }
}

#[test]
fn a_problem_with_equality_is_refused_by_its_step() {
    let problem = "begin_problem(E).\nlist_of_descriptions.\nname({*e*}).\nauthor({*e*}).\nstatus(unsatisfiable).\ndescription({*e*}).\nend_of_list.\n\
                   list_of_symbols.\nfunctions[(a,0),(b,0)].\npredicates[(p,1)].\nend_of_list.\n\
                   list_of_clauses(axioms, cnf).\nclause(or(equal(a,b))).\nclause(or(p(a))).\nclause(or(not(p(b)))).\nend_of_list.\nend_problem.\n";
    if !is_installed("SPASS") {
        return;
    }
    let folder = Folder::new();
    let path = folder.write("problem", problem);
    let printed = Command::new("SPASS").arg("-DocProof").arg(path).output().expect("SPASS runs");
    let proof = folder.write("proof", printed.stdout).display().to_string();
    let run = run(["from-spass", &proof, "-o", &folder.at("file").display().to_string()]);
    assert_eq!((run.status, run.stdout.as_str()), (3, ""));
    assert!(
        run.stderr.ends_with("step 1 (Inp): equality, which a proof file knows nothing of\n"),
        "{}",
        run.stderr
    );
    assert_eq!(folder.names(), ["problem", "proof"]);
}
