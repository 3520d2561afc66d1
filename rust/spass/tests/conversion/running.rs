//! What the tests have in common: stored proofs, SPASS run, and a proof converted and checked.

use std::fs;
use std::path::{Path, PathBuf};
use std::process::Command;

use yestrwyn_spass::{proof_file, Converted};

/// The folder of the problems.
pub fn problems() -> PathBuf {
    Path::new(env!("CARGO_MANIFEST_DIR")).join("problems")
}

/// The stored proofs: the name of each, the command that printed it, and what that printed.
pub fn stored() -> Vec<(String, String, String)> {
    let mut paths: Vec<PathBuf> =
        fs::read_dir(problems()).expect("a folder").map(|entry| entry.expect("an entry").path()).collect();
    paths.retain(|path| path.extension().is_some_and(|extension| extension == "spass"));
    paths.sort();
    let read = |path: PathBuf| {
        let text = fs::read_to_string(&path).expect("a stored proof");
        let command = text.lines().next().expect("the command").to_string();
        (path.file_stem().expect("a name").to_string_lossy().into_owned(), command, text)
    };
    paths.into_iter().map(read).collect()
}

/// Is SPASS installed?
pub fn spass_is_installed() -> bool {
    let found = Command::new("SPASS").arg("-Stdin=0").output().is_ok();
    if !found {
        eprintln!("SPASS is not installed: it does not run in this test");
    }
    found
}

/// What SPASS prints, run in the folder of the problems.
pub fn spass(words: &[&str]) -> String {
    let output = Command::new("SPASS").args(words).current_dir(problems()).output().expect("SPASS");
    String::from_utf8(output.stdout).expect("text")
}

/// A proof converted to a file that the second implementation accepts.
pub fn accepted(name: &str, text: &str) -> Converted {
    let converted = proof_file(text).unwrap_or_else(|error| panic!("{name}: {error}"));
    let answer = yestrwyn_second::check(0, &converted.file);
    assert!(answer.verdict.is_accepted(), "{name}: {answer}");
    converted
}
