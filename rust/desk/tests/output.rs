//! Output that is closed or full.

mod common;

use std::process::{Command, Stdio};

use common::{command, run_onto, Folder};

/// The status and standard error of a command whose reader is gone before it writes.
fn unread(words: &[&str]) -> (Option<i32>, String) {
    let mut child = command(words).stdout(Stdio::piped()).stderr(Stdio::piped()).spawn().expect("it runs");
    drop(child.stdout.take());
    let output = child.wait_with_output().expect("it ends");
    (output.status.code(), String::from_utf8(output.stderr).expect("text"))
}

#[test]
fn a_closed_output_is_no_failure() {
    for (words, status) in [
        (&["check", "examples/curfew.proof"][..], 0),
        (&["check", "--json", "examples/rulebook.proof"], 1),
        (&["check", "examples/refused.proof"], 2),
        (&["readout", "examples/curfew.proof"], 0),
        (&["readout", "--names", "examples/curfew.names", "examples/curfew.proof"], 0),
        (&["readout", "examples/refused.proof"], 2),
        (&["stats", "examples/curfew.proof"], 0),
        (&["covers", "examples/covers.proof"], 0),
        (&["merge", "examples/rulebook.proof", "examples/trip.proof", "-o", "-"], 0),
        (&["help"], 0),
    ] {
        assert_eq!(unread(words), (Some(status), String::new()), "{words:?}");
    }
}

#[test]
fn verdicts_after_the_output_is_closed_count() {
    // Far more is written than a pipe holds, and the last file is refused.
    let folder = Folder::new();
    let long = "a".repeat(200);
    for number in 0..2000 {
        folder.write(format!("{long}{number:05}"), common::example("sheets.proof"));
    }
    folder.write("z", common::example("refused.proof"));
    let text = folder.text();
    let (status, stderr) = unread(&["check", &text]);
    assert_eq!(status, Some(2));
    assert!(
        stderr.ends_with(": 2000 accepted, 0 open, 1 refused, 0 failed\n") && stderr.lines().count() == 1
    );
}

#[test]
fn a_full_disk_is_one_line() {
    for words in [
        &["check", "examples/curfew.proof"][..],
        &["check", "--json", "examples/curfew.proof", "examples/duty.proof"],
        &["readout", "examples/curfew.proof"],
        &["readout", "--canonical", "--names", "examples/curfew.names", "examples/curfew.proof"],
        &["stats", "examples/curfew.proof"],
        &["covers", "examples/covers.proof"],
        &["covers", "examples/covers.proof", "0", "1"],
        &["trim", "examples/curfew.proof", "-o", "-"],
        &["help"],
        &["--version"],
    ] {
        run_onto(words, "/dev/full").fails("standard output: no space left on the device");
    }
}

#[test]
fn a_full_disk_ends_a_long_check() {
    let folder = Folder::new();
    for number in 0..2000 {
        folder.write(format!("{}{number}", "a".repeat(200)), common::example("sheets.proof"));
    }
    run_onto(["check", &folder.text()], "/dev/full").fails("standard output: no space left on the device");
}

#[test]
fn standard_error_may_be_closed_too() {
    let script = r#""$0" check missing 2>&-; echo $?; "$0" check missing 2>/dev/full; echo $?; "$0" check missing >&- 2>/dev/null; echo $?"#;
    let output =
        Command::new("sh").args(["-c", script, env!("CARGO_BIN_EXE_yestrwyn")]).output().expect("a shell");
    assert_eq!(String::from_utf8_lossy(&output.stdout), "3\n3\n3\n");
}

#[test]
fn a_closed_input_is_the_empty_file() {
    let script = r#""$0" check - <&-"#;
    let output =
        Command::new("sh").args(["-c", script, env!("CARGO_BIN_EXE_yestrwyn")]).output().expect("a shell");
    assert_eq!((output.status.code(), &output.stdout[..]), (Some(1), &b"standard input: open\n"[..]));
}
