//! `yestrwyn merge`, `trim` and `convert`.

mod common;

use std::fs;
use std::os::unix::fs::{symlink, PermissionsExt};
use std::path::Path;

use common::{example, run, run_with, Folder, Run};

/// Runs words of which the last, the output, is a path.
fn run_to(words: &[&str], path: &Path) -> Run {
    run(words.iter().map(AsRef::as_ref).chain(["-o".as_ref(), path.as_os_str()]))
}

/// A run that writes a file says nothing.
const DONE: (i32, &str, &str) = (0, "", "");

fn said(run: &Run) -> (i32, &str, &str) {
    (run.status, &run.stdout, &run.stderr)
}

#[test]
fn files_are_written() {
    let folder = Folder::new();
    let out = folder.at("out");
    for (words, right) in [
        (&["merge", "examples/rulebook.proof", "examples/trip.proof"][..], example("merged.proof")),
        (&["trim", "--day", "21000", "examples/declined.proof"], example("archive.proof")),
        (&["trim", "--day=2027-07-01", "examples/archive.proof"], example("archive.proof")),
        (&["trim", "examples/curfew.proof"], example("curfew.proof")),
        (
            &["convert", "--to", "new", "examples/season.proof"],
            yestrwyn_second::to_new(&example("season.proof")).expect("converted"),
        ),
    ] {
        assert_eq!(said(&run_to(words, &out)), DONE, "{words:?}");
        assert_eq!(fs::read(&out).expect("a file"), right, "{words:?}");
    }
    let old = folder.at("old");
    assert_eq!(
        said(&run([
            "convert".as_ref(),
            "--to=old".as_ref(),
            out.as_os_str(),
            "-o".as_ref(),
            old.as_os_str()
        ])),
        DONE
    );
    let back = yestrwyn_second::to_old(&fs::read(&out).expect("a file")).expect("converted");
    assert_eq!(fs::read(&old).expect("a file"), back);
    assert_eq!(folder.names(), ["old", "out"]);
}

#[test]
fn standard_output_and_input() {
    let output =
        common::command(["merge", "-o", "-", "examples/rulebook.proof", "examples/trip.proof"]).output();
    assert_eq!(output.expect("it runs").stdout, example("merged.proof"));
    let folder = Folder::new();
    let out = folder.at("out");
    let words =
        ["merge".as_ref(), "-".as_ref(), "examples/trip.proof".as_ref(), "-o".as_ref(), out.as_os_str()];
    assert_eq!(said(&run_with(words, &example("rulebook.proof"))), DONE);
    assert_eq!(fs::read(&out).expect("a file"), example("merged.proof"));
    run(["merge", "-", "-", "-o", "-"])
        .fails("standard input is named twice, and can be read once: see 'yestrwyn help merge'");
}

#[test]
fn refusals_in_words_leave_the_output_alone() {
    let folder = Folder::new();
    let out = folder.write("out", "as it was");
    for (words, status, line) in [
        (&["merge", "examples/rulebook.proof", "examples/declined.proof"][..], 2, "examples/declined.proof: refused 17 at 30: a file that is to be merged holds a step"),
        (&["merge", "examples/curfew.proof", "examples/trip.proof"], 2, "examples/curfew.proof: refused 17 at 32: a file that is to be merged holds a step"),
        (&["merge", "examples/rulebook.proof", "examples/covers.proof"], 2, "examples/covers.proof: refused 18 at 0: of two files that are to be merged, neither list of symbols begins the other"),
        (&["merge", "examples/refused.proof", "examples/trip.proof"], 2, "examples/refused.proof: refused 8 at 22: the signs do not fit, or a literal is factored with itself"),
        (&["trim", "examples/refused.proof"], 2, "examples/refused.proof: refused 8 at 22: the signs do not fit, or a literal is factored with itself"),
        (&["trim", "--day", "0", "examples/declined.proof"], 1, "examples/declined.proof: refused 23 at 0: the file stands but is not accepted on that day"),
        (&["trim", "examples/rulebook.proof"], 1, "examples/rulebook.proof: refused 23 at 0: the file stands but is not accepted on that day"),
        (&["trim", "examples/declined.proof"], 3, "examples/declined.proof: a rule that it uses has days, and the verdict can depend on the day: give --day"),
        (&["convert", "--to", "new", "examples/refused.proof"], 2, "examples/refused.proof: refused 8 at 22: the signs do not fit, or a literal is factored with itself"),
        (&["merge", "examples/rulebook.proof", "missing"], 3, "missing: there is no such file"),
        (&["convert", "--to", "new", "examples"], 3, "examples: it is a folder, and a file is wanted"),
    ] {
        let line = format!("yestrwyn: {line}\n");
        assert_eq!(said(&run_to(words, &out)), (status, "", line.as_str()), "{words:?}");
        assert_eq!(fs::read(&out).expect("a file"), b"as it was");
    }
    assert_eq!(folder.names(), ["out"]);
}

#[test]
fn refusals_about_neither_file_name_both() {
    let folder = Folder::new();
    let symbols = folder.write("symbols", [&[1][..], &[0; 15]].concat().repeat(1));
    let row = [&[2u8, 0, 1][..], &[0; 13]].concat();
    let rows = folder.write("rows", row.repeat(4096));
    let run = run(["merge".as_ref(), rows.as_os_str(), symbols.as_os_str(), "-o".as_ref(), "-".as_ref()]);
    let line = format!(
        "yestrwyn: {} and {}: refused 19 at 0: the merged file would have over 4,096 records\n",
        rows.display(),
        symbols.display()
    );
    assert_eq!(said(&run), (2, "", line.as_str()));
    let run =
        common::run(["convert".as_ref(), "--to=new".as_ref(), rows.as_os_str(), "-o".as_ref(), "-".as_ref()]);
    assert_eq!((run.status, run.stdout.as_str()), (2, ""));
    assert!(run.stderr.contains(": refused 22 at 0: "));
}

#[test]
fn a_file_that_is_read_is_not_written_over() {
    let folder = Folder::new();
    let input = folder.write("input", example("curfew.proof"));
    symlink(&input, folder.at("link")).expect("a link");
    fs::hard_link(&input, folder.at("hard")).expect("a link");
    for name in ["input", "link", "hard"] {
        let out = folder.at(name);
        let run = run(["trim".as_ref(), input.as_os_str(), "-o".as_ref(), out.as_os_str()]);
        run.fails(&format!(
            "{}: it is read, and is not written over: name another file after -o",
            out.display()
        ));
    }
    assert_eq!(fs::read(&input).expect("a file"), example("curfew.proof"));
}

#[test]
fn an_earlier_file_is_replaced_in_its_place() {
    let folder = Folder::new();
    let target = folder.write("target", "earlier");
    fs::set_permissions(&target, fs::Permissions::from_mode(0o640)).expect("permissions");
    let link = folder.at("link");
    symlink("target", &link).expect("a link");
    assert_eq!(said(&run_to(&["trim", "examples/curfew.proof"], &link)), DONE);
    assert!(fs::symlink_metadata(&link).expect("a link").is_symlink());
    assert_eq!(fs::read(&target).expect("a file"), example("curfew.proof"));
    assert_eq!(fs::metadata(&target).expect("a file").permissions().mode() & 0o777, 0o640);
    fs::set_permissions(&target, fs::Permissions::from_mode(0o440)).expect("permissions");
    run_to(&["trim", "examples/duty.proof"], &target)
        .fails(&format!("{}: it is read-only, and is not written over", target.display()));
    assert_eq!(folder.names(), ["link", "target"]);
}

#[test]
fn where_nothing_can_be_written() {
    let folder = Folder::new();
    let trim = ["trim", "examples/curfew.proof"];
    run_to(&trim, folder.path())
        .fails(&format!("{}: it is a folder, and a file is to be written", folder.text()));
    let lost = folder.at("no/out");
    run_to(&trim, &lost).fails(&format!("{}: there is no folder '{}/no'", lost.display(), folder.text()));
    run_to(&trim, Path::new("/dev/full")).fails("/dev/full: no space left on the device");
    assert_eq!(said(&run_to(&trim, Path::new("/dev/null"))), DONE);
    assert!(!fs::metadata("/dev/null").expect("a device").is_file());
    run(trim).fails("-o FILE says where to write, or -o - for standard output: see 'yestrwyn help trim'");
    assert_eq!(folder.names(), [""; 0]);
}

#[test]
fn words_that_are_missing() {
    run(["merge", "a", "-o", "b"]).fails("a rulebook and a trip are wanted: see 'yestrwyn help merge'");
    run(["convert", "a", "-o", "b"]).fails("--to old or --to new is wanted: see 'yestrwyn help convert'");
    run(["convert", "--to", "x", "examples/curfew.proof", "-o", "b"])
        .fails("--to is old or new, not 'x': see 'yestrwyn help convert'");
}
