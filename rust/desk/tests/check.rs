//! `yestrwyn check`.

mod common;

use std::ffi::OsStr;
use std::fs;
use std::os::unix::ffi::OsStrExt;
use std::os::unix::fs::{symlink, PermissionsExt};
use std::process::Command;

use common::json::{get, object, word, Value};
use common::{example, root, run, run_with, Folder};

#[test]
fn each_verdict_has_its_status() {
    for (name, line, status) in [
        ("curfew", "accepted 11", 0),
        ("rulebook", "open", 1),
        ("refused", "refused 8 at 22: the signs do not fit, or a literal is factored with itself", 2),
    ] {
        let file = format!("examples/{name}.proof");
        let run = run(["check", &file]);
        assert_eq!((run.status, run.stdout), (status, format!("{file}: {line}\n")));
        assert_eq!(run.stderr, "");
    }
}

#[test]
fn the_highest_status_wins() {
    let [accepted, open, refused] =
        ["curfew", "covers", "refused"].map(|name| format!("examples/{name}.proof"));
    let status = |files: &[&str]| run([&["check"][..], files].concat()).status;
    assert_eq!(status(&[&accepted, &accepted]), 0);
    assert_eq!(status(&[&open, &accepted]), 1);
    assert_eq!(status(&[&accepted, &refused, &open]), 2);
    assert_eq!(status(&[&accepted, "missing", &refused]), 3);
}

#[test]
fn files_come_in_the_order_of_the_arguments() {
    let names = ["two_steps", "curfew", "sheets", "duty", "permit", "curfew"];
    let files = names.map(|name| format!("examples/{name}.proof"));
    let run = run([&["check".to_string()], &files[..]].concat());
    let order: Vec<&str> =
        run.stdout.lines().map(|line| line.split(':').next().unwrap_or_default()).collect();
    assert_eq!(order, files);
    assert!(
        run.stderr.starts_with("6 files in ")
            && run.stderr.ends_with(": 6 accepted, 0 open, 0 refused, 0 failed\n")
    );
    assert_eq!(run.stderr.lines().count(), 1);
}

#[test]
fn a_day_is_a_number_or_a_date() {
    for (day, verdict, status) in [
        ("0", "open", 1),
        ("20938", "open", 1),
        ("2027-04-30", "open", 1),
        ("20939", "accepted 6", 0),
        ("2027-05-01", "accepted 6", 0),
        ("2027-10-31", "accepted 6", 0),
        ("2027-11-01", "open", 1),
        ("65535", "open", 1),
    ] {
        let run = run(["check", "--day", day, "examples/season.proof"]);
        assert_eq!(
            (run.stdout, run.status),
            (format!("examples/season.proof: {verdict}\n"), status),
            "{day}"
        );
    }
    assert_eq!(run(["check", "--day=today", "examples/curfew.proof"]).status, 0);
    run(["check", "--day", "2027-02-29", "examples/season.proof"])
        .fails("--day: 2027-02-29 is no date of the calendar: see 'yestrwyn help check'");
}

#[test]
fn a_day_is_asked_for_where_the_verdict_can_depend_on_it() {
    let asks = "a rule that it uses has days, and the verdict can depend on the day: give --day";
    for name in ["season", "declined", "archive"] {
        run(["check", &format!("examples/{name}.proof")]).fails(&format!("examples/{name}.proof: {asks}"));
    }
    // Rules with days that no empty clause uses leave the verdict as it is on every day.
    for name in ["rulebook", "trip", "merged"] {
        assert_eq!(run(["check", &format!("examples/{name}.proof")]).status, 1, "{name}");
    }
    // The same in the new form, where days stand beside each rule.
    let folder = Folder::new();
    for (name, status) in [("season", 3), ("curfew", 0), ("merged", 1)] {
        let file = folder
            .write(name, yestrwyn_second::to_new(&example(&format!("{name}.proof"))).expect("converted"));
        assert_eq!(
            run(["check".as_ref(), "--form".as_ref(), "new".as_ref(), file.as_os_str()]).status,
            status,
            "{name}"
        );
    }
}

#[test]
fn a_refusal_needs_no_day() {
    let folder = Folder::new();
    let mut file = example("season.proof");
    file.extend([9; 16]);
    let run = run(["check".as_ref(), folder.write("a", &file).as_os_str()]);
    assert_eq!((run.status, run.stderr.as_str()), (2, ""));
    assert!(run.stdout.contains(": refused 3 at 24: "));
}

#[test]
fn files_of_the_new_form() {
    let folder = Folder::new();
    let file = folder.write("a", yestrwyn_second::to_new(&example("season.proof")).expect("converted"));
    let words =
        |day| ["check", "--form", "new", "--day", day].map(OsStr::new).into_iter().chain([file.as_os_str()]);
    assert_eq!((run(words("21000")).status, run(words("0")).status), (0, 1));
    let old = run(["check".as_ref(), "--form=old".as_ref(), "--day=0".as_ref(), file.as_os_str()]);
    assert!(old.stdout.contains(": refused "), "{old:?}");
    run(["check", "--form", "newer", "a"])
        .fails("--form is old or new, not 'newer': see 'yestrwyn help check'");
}

#[test]
fn standard_input() {
    let run = run_with(["check", "-"], &example("curfew.proof"));
    assert_eq!((run.status, run.stdout.as_str()), (0, "standard input: accepted 11\n"));
    // An empty input is the empty file, which is open.
    assert_eq!(run_with(["check", "-"], b"").status, 1);
    // Named twice it would be empty the second time, and open.
    let twice = run_with(["check", "-", "-"], &example("curfew.proof"));
    assert_eq!((twice.status, twice.stdout.as_str()), (3, "standard input: accepted 11\n"));
    assert!(twice.stderr.starts_with("yestrwyn: standard input is named twice, and can be read once\n"));
}

#[test]
fn long_files_are_refused_by_their_length() {
    let folder = Folder::new();
    for length in [65_552, 65_537, 1 << 24] {
        let run = run(["check".as_ref(), folder.write("long", vec![1; length]).as_os_str()]);
        assert!(run.status == 2 && run.stdout.contains(": refused 1 at 0: "), "{run:?}");
    }
    // Of an input without an end no more is read than that.
    let endless = fs::File::open("/dev/zero").expect("a device");
    let output = common::command(["check", "-"]).stdin(endless).output().expect("it runs");
    assert_eq!(output.status.code(), Some(2));
}

#[test]
fn what_is_not_there_or_not_read() {
    run(["check", "missing.proof"]).fails("missing.proof: there is no such file");
    run(["check", "README.md/a"]).fails("README.md/a: Not a directory (os error 20)");
    let memory = format!("/proc/{}/mem", std::process::id());
    run(["check", &memory]).fails(&format!("{memory}: Input/output error (os error 5)"));
    let folder = Folder::new();
    let closed = folder.write("closed", "");
    fs::set_permissions(&closed, fs::Permissions::from_mode(0o000)).expect("permissions");
    // The superuser may read it all the same.
    if fs::File::open(&closed).is_err() {
        run(["check".as_ref(), closed.as_os_str()])
            .fails(&format!("{}: permission denied", closed.display()));
    }
}

#[test]
fn a_folder_stands_for_its_files() {
    let folder = Folder::new();
    for (name, from) in [("b/2", "duty"), ("b/10", "sheets"), ("a", "curfew"), ("c", "permit")] {
        folder.write(name, example(&format!("{from}.proof")));
    }
    // A link to a file is one of them; a link to a folder is not followed, so that it may lead round in a circle.
    symlink(folder.at("a"), folder.at("link")).expect("a link");
    symlink(folder.path(), folder.at("circle")).expect("a link");
    // A pipe would be waited for, and is left out.
    assert!(Command::new("mkfifo").arg(folder.at("pipe")).status().expect("mkfifo").success());
    let run = run(["check".as_ref(), folder.path().as_os_str()]);
    let line = |name: &str, clause: u16| format!("{}/{name}: accepted {clause}\n", folder.text());
    let lines = [line("a", 11), line("b/10", 3), line("b/2", 15), line("c", 9), line("link", 11)];
    assert_eq!((run.status, run.stdout), (0, lines.concat()));
}

#[test]
fn a_folder_without_files_is_no_success() {
    let folder = Folder::new();
    let fails = format!("{}: there is no file in this folder", folder.text());
    run(["check".as_ref(), folder.path().as_os_str()]).fails(&fails);
    fs::create_dir(folder.at("empty")).expect("a folder");
    run(["check".as_ref(), folder.path().as_os_str()]).fails(&fails);
    run(["check", "--"]).fails("a file is wanted: see 'yestrwyn help check'");
}

#[test]
fn a_link_to_nothing_in_a_folder_is_a_failure() {
    let folder = Folder::new();
    symlink("nothing", folder.at("link")).expect("a link");
    run(["check".as_ref(), folder.path().as_os_str()])
        .fails(&format!("{}/link: there is no such file", folder.text()));
}

#[test]
fn names_of_files_stay_on_their_line() {
    let folder = Folder::new();
    let name = OsStr::from_bytes(b"two\nlines \xff\x1b[2J");
    let file = folder.write(name, example("curfew.proof"));
    let run = run([OsStr::new("check"), file.as_os_str()]);
    let shown = format!("{}/two\\nlines \u{fffd}\\u{{1b}}[2J: accepted 11\n", folder.text());
    assert_eq!((run.status, run.stdout), (0, shown));
    let json = common::run([OsStr::new("check"), OsStr::new("--json"), file.as_os_str()]);
    let file = object(json.stdout.trim_end_matches('\n'));
    assert_eq!(get(&file, "file"), &word(&format!("{}/two\nlines \u{fffd}\u{1b}[2J", folder.text())));
}

/// The keys of a line, in their order.
const KEYS: [&str; 14] = [
    "file",
    "form",
    "day",
    "verdict",
    "clause",
    "maximum_index",
    "reason",
    "record",
    "meaning",
    "symbols",
    "rows",
    "clauses",
    "bindings",
    "error",
];

#[test]
fn json_has_all_keys_in_every_line() {
    let files = ["season", "rulebook", "refused"].map(|name| format!("examples/{name}.proof"));
    let words = ["check", "--json", "--day", "21000", &files[0], &files[1], &files[2], "missing"];
    let run = run(words);
    let lines: Vec<_> = run.stdout.lines().map(object).collect();
    for line in &lines {
        assert!(line.iter().map(|(key, _)| key).eq(KEYS), "{line:?}");
    }
    let values = |line: usize, keys: &[&str]| {
        keys.iter().map(|key| get(&lines[line], key).clone()).collect::<Vec<_>>()
    };
    let numbers = |numbers: &[u64]| numbers.iter().map(|number| Value::Number(*number)).collect::<Vec<_>>();
    let words: Vec<_> = (0..4).map(|line| get(&lines[line], "verdict").clone()).collect();
    assert_eq!(words, ["accepted", "open", "refused", "failed"].map(word));
    assert_eq!(values(0, &["clause", "maximum_index", "day"]), numbers(&[6, 4, 21_000]));
    assert_eq!(values(0, &["symbols", "rows", "clauses", "bindings"]), numbers(&[5, 10, 7, 3]));
    assert_eq!(values(0, &["reason", "record", "meaning", "error"]), vec![Value::Null; 4]);
    assert_eq!(values(1, &["clause", "maximum_index", "reason", "record"]), vec![Value::Null; 4]);
    assert_eq!(values(2, &["reason", "record"]), numbers(&[8, 22]));
    let meaning = "the signs do not fit, or a literal is factored with itself";
    assert_eq!(values(2, &["meaning", "form"]), [meaning, "old"].map(word));
    assert_eq!(values(3, &["file", "error"]), ["missing", "missing: there is no such file"].map(word));
    assert_eq!(values(3, &KEYS[4..13]), vec![Value::Null; 9]);
    assert_eq!(run.status, 3);
    assert!(run.stderr.starts_with("yestrwyn: missing: there is no such file\n"));
}

#[test]
fn json_without_a_day_has_none() {
    let line = run(["check", "--json", "examples/curfew.proof"]).stdout;
    assert_eq!(get(&object(line.trim_end()), "day"), &Value::Null);
    let input = run_with(["check", "--json", "-"], &example("curfew.proof")).stdout;
    assert_eq!(get(&object(input.trim_end()), "file"), &word("-"));
}

#[test]
fn the_page_tells_the_keys() {
    let page = fs::read_to_string(root().join("docs/COMMAND.md")).expect("the page");
    let section = page.split("\n## ").find(|section| section.starts_with("JSON")).expect("the section");
    let told: Vec<&str> =
        section.lines().filter_map(|line| line.strip_prefix("| `")?.split('`').next()).collect();
    assert_eq!(told, KEYS);
}
