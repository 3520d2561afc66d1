//! The programs that the guide to the format quotes compile, and print what the stored readouts say; so do the programs
//! in C that print the second readout, that ask which clause covers which, that merge two files, that check and convert files of
//! either form, that trim a file, and that open a board.

use std::fs;
use std::path::{Path, PathBuf};
use std::process::{Command, Output, Stdio};
use std::sync::OnceLock;

use yestrwyn::{Covering, Form, MergeRefusal, Outcome};
use yestrwyn_second::board::Afresh;

#[allow(dead_code)]
#[path = "../../yestrwyn/examples/board.rs"]
mod board;

#[allow(dead_code)]
#[path = "../../yestrwyn/examples/check.rs"]
mod check;

#[allow(dead_code)]
#[path = "../../yestrwyn/examples/convert.rs"]
mod convert;

#[allow(dead_code)]
#[path = "../../yestrwyn/examples/merge.rs"]
mod merge;

#[allow(dead_code)]
#[path = "../../yestrwyn/examples/service.rs"]
mod service;

#[allow(dead_code)]
#[path = "../../yestrwyn/examples/trim.rs"]
mod trim;

/// The stored examples.
const EXAMPLES: [&str; 13] = [
    "archive",
    "covers",
    "curfew",
    "declined",
    "duty",
    "merged",
    "permit",
    "refused",
    "rulebook",
    "season",
    "sheets",
    "trip",
    "two_steps",
];

/// The day of the stored readouts.
const DAY: &str = "0";
/// An example that is accepted on another day only, and that day.
const SEASON: (&str, u16) = ("season", 21_000);

/// A path from the root of the repository.
fn path(from_root: &str) -> PathBuf {
    Path::new(env!("CARGO_MANIFEST_DIR")).join("../..").join(from_root)
}

/// A stored text.
fn text(from_root: &str) -> String {
    fs::read_to_string(path(from_root)).unwrap_or_else(|error| panic!("{from_root}: {error}"))
}

/// The stored readout of an example.
fn readout(example: &str) -> String {
    text(&format!("examples/{example}.txt"))
}

/// The first line of it, with its line feed.
fn verdict(example: &str) -> String {
    readout(example).split_inclusive('\n').next().unwrap_or("").to_string()
}

/// The lines that a service prints for all examples, if it prints what is asked of their first lines.
fn for_all(line: impl Fn(&str) -> String) -> String {
    EXAMPLES.iter().map(|example| line(&verdict(example))).collect()
}

/// The programs `check`, `readout` and `canonical`, compiled once.
fn programs() -> &'static [PathBuf; 3] {
    static PROGRAMS: OnceLock<[PathBuf; 3]> = OnceLock::new();
    PROGRAMS.get_or_init(|| ["check", "readout", "canonical"].map(compiled))
}

/// The program `service`, compiled once.
fn service_program() -> &'static Path {
    static PROGRAM: OnceLock<PathBuf> = OnceLock::new();
    PROGRAM.get_or_init(|| compiled("service"))
}

/// The program `covers`, compiled once.
fn covers_program() -> &'static Path {
    static PROGRAM: OnceLock<PathBuf> = OnceLock::new();
    PROGRAM.get_or_init(|| compiled("covers"))
}

/// The program `merge`, compiled once.
fn merge_program() -> &'static Path {
    static PROGRAM: OnceLock<PathBuf> = OnceLock::new();
    PROGRAM.get_or_init(|| compiled("merge"))
}

/// The programs `form` and `convert`, compiled once.
fn form_programs() -> &'static [PathBuf; 2] {
    static PROGRAMS: OnceLock<[PathBuf; 2]> = OnceLock::new();
    PROGRAMS.get_or_init(|| ["form", "convert"].map(compiled))
}

/// The program `trim`, compiled once.
fn trim_program() -> &'static Path {
    static PROGRAM: OnceLock<PathBuf> = OnceLock::new();
    PROGRAM.get_or_init(|| compiled("trim"))
}

/// The program `board`, compiled once.
fn board_program() -> &'static Path {
    static PROGRAM: OnceLock<PathBuf> = OnceLock::new();
    PROGRAM.get_or_init(|| compiled("board"))
}

/// Compiles a program of `snippets` against the library and returns where it lies.
fn compiled(name: &str) -> PathBuf {
    let program = Path::new(env!("CARGO_TARGET_TMPDIR")).join(name);
    let status = Command::new("gcc")
        .args(["-std=c99", "-Wall", "-Wextra", "-Werror", "-pedantic", "-O2", "-I"])
        .arg(path("crates/checker_c"))
        .arg(path(&format!("rust/comparison/snippets/{name}.c")))
        .arg(path("crates/checker_c/out/libchecker_c.a"))
        .arg("-o")
        .arg(&program)
        .status();
    assert!(status.expect("gcc is there").success(), "{name}.c compiles");
    program
}

/// What a program prints for an example on a day.
fn printed(program: &Path, day: &str, example: &str) -> String {
    printed_with(program, &[day.to_string()], example)
}

/// The same with arguments.
fn printed_with(program: &Path, words: &[String], example: &str) -> String {
    let file = fs::File::open(path(&format!("examples/{example}.proof"))).expect("a stored example");
    let output = Command::new(program).args(words).stdin(Stdio::from(file)).output().expect("it runs");
    assert!(output.status.success());
    String::from_utf8(output.stdout).expect("text")
}

#[test]
fn the_check_from_c() {
    let [program, ..] = programs();
    for example in EXAMPLES {
        assert_eq!(printed(program, DAY, example), verdict(example), "{example}");
    }
    let (example, day) = SEASON;
    assert_eq!(printed(program, &day.to_string(), example), verdict(&format!("{example}-{day}")));
}

#[test]
fn the_readout_from_c() {
    let [_, program, _] = programs();
    for example in EXAMPLES {
        assert_eq!(printed(program, DAY, example), readout(example), "{example}");
    }
    let (example, day) = SEASON;
    assert_eq!(printed(program, &day.to_string(), example), readout(&format!("{example}-{day}")));
}

#[test]
fn the_second_readout_from_c() {
    let [_, _, program] = programs();
    let examples = EXAMPLES.iter().map(|&example| (example, 0));
    for (example, day) in examples.chain([SEASON]) {
        let file = fs::read(path(&format!("examples/{example}.proof"))).expect("a stored example");
        let right = String::from_utf8(yestrwyn_second::canonical_readout(day, &file)).expect("text");
        assert_eq!(printed(program, &day.to_string(), example), right, "{example}");
    }
}

/// The line that the program `covers` is to print.
fn line_of(covering: &Covering) -> String {
    match covering.outcome {
        Outcome::Yes => {
            let chosen = covering.literals.iter().filter(|&&literal| literal != 0);
            chosen.fold("yes".to_string(), |line, literal| format!("{line} {literal}")) + "\n"
        }
        Outcome::No => "no\n".to_string(),
        Outcome::Refused { reason, record } => format!("refused {} at {record}\n", reason.number()),
    }
}

#[test]
fn covers_from_c() {
    let mut lines = Vec::new();
    for example in EXAMPLES {
        let file = fs::read(path(&format!("examples/{example}.proof"))).expect("a stored example");
        for (c, d) in (0..5).flat_map(|c| (0..5).map(move |d| (c, d))).chain([(0, u16::MAX)]) {
            let line = printed_with(covers_program(), &[c, d].map(|word: u16| word.to_string()), example);
            assert_eq!(line, line_of(&yestrwyn_second::covers(&file, c, d)), "{c} and {d} of {example}");
            assert_eq!(line, line_of(&yestrwyn::covers(&file, c, d).expect("a thread")));
            lines.push(line);
        }
    }
    for line in ["yes 2 1\n", "yes 1 2\n", "no\n", "refused 15 at 0\n"] {
        assert!(lines.iter().any(|printed| printed == line), "{line}");
    }
}

/// Words that are no numbers of clauses, and more of them or fewer than two.
#[test]
fn words_that_are_no_clauses() {
    for words in ["", "0", "0 1 2", "x 0", "0 1x", "-1 0", "65536 0", "0 99999999999999999999"] {
        let mut program = Command::new(covers_program());
        let output = program.args(words.split_whitespace()).stdin(Stdio::null()).output().expect("it runs");
        assert!(!output.status.success() && output.stdout.is_empty(), "{words}");
        assert!(String::from_utf8_lossy(&output.stderr).starts_with("usage: "), "{words}");
    }
}

/// What the program `merge` makes of two files, by their paths from the root.
fn merged(first: &str, second: &str) -> Output {
    Command::new(merge_program()).arg(path(first)).arg(path(second)).output().expect("it runs")
}

#[test]
fn merge_from_c() {
    let (mut written, mut refused) = (0, 0);
    for (one, other) in EXAMPLES.iter().flat_map(|one| EXAMPLES.map(|other| (*one, other))) {
        let [first, second] = [one, other].map(|name| format!("examples/{name}.proof"));
        let [a, b] = [&first, &second].map(|name| fs::read(path(name)).expect("a stored example"));
        let output = merged(&first, &second);
        match yestrwyn_second::merge(&a, &b) {
            Ok(file) => {
                assert!(output.status.success() && output.stdout == file, "{one} and {other}");
                written += 1;
            }
            Err(MergeRefusal { reason, file, record }) => {
                let line = format!("refused {} at {record} of file {file}\n", reason.number());
                assert!(!output.status.success() && output.stdout.is_empty(), "{one} and {other}");
                assert_eq!(String::from_utf8_lossy(&output.stderr), line, "{one} and {other}");
                refused += 1;
            }
        }
    }
    assert!(written >= 6 && refused > 60, "{written} written, {refused} refused");
    // The stored example is what the program writes.
    let stored = fs::read(path("examples/merged.proof")).expect("a stored example");
    assert!(merged("examples/rulebook.proof", "examples/trip.proof").stdout == stored);
}

/// A missing file, a folder, more words than two or fewer, and a full device.
#[test]
fn failed_reads_and_writes_of_the_merge() {
    let good = "examples/rulebook.proof";
    for (first, second) in
        [("examples/missing.proof", good), (good, "examples/missing.proof"), (good, "examples")]
    {
        let output = merged(first, second);
        assert!(!output.status.success() && output.stdout.is_empty() && !output.stderr.is_empty());
    }
    for words in [&[][..], &[good], &[good, good, good]] {
        let output = Command::new(merge_program()).args(words.iter().map(|name| path(name))).output();
        let output = output.expect("it runs");
        assert!(!output.status.success() && output.stdout.is_empty());
        assert!(String::from_utf8_lossy(&output.stderr).starts_with("usage: "));
    }
    let full = fs::File::options().write(true).open("/dev/full").expect("a full device");
    let mut program = Command::new(merge_program());
    program.arg(path(good)).arg(path("examples/trip.proof")).stdout(Stdio::from(full)).stderr(Stdio::piped());
    let written = program.spawn().and_then(|child| child.wait_with_output()).expect("it runs");
    assert!(!written.status.success());
    assert!(String::from_utf8_lossy(&written.stderr).starts_with("standard output: "));
}

#[test]
fn merge_from_rust() {
    let names = ["rulebook", "trip", "merged", "declined"];
    let [rulebook, trip, stored, declined] =
        names.map(|name| fs::read(path(&format!("examples/{name}.proof"))).expect("a stored example"));
    assert_eq!(merge::merged(&rulebook, &trip).expect("a merged file"), stored);
    let refusal = merge::merged(&rulebook, &declined).expect_err("a refusal");
    assert_eq!(refusal.to_string(), "file 2: refused 17 at 30");
}

/// What the program `convert` makes of a file that lies in some folder.
fn converted(word: &str, name: &Path) -> Output {
    let [_, program] = form_programs();
    Command::new(program).arg(word).arg(name).output().expect("it runs")
}

/// Every example to the new form, checked there, and back.
#[test]
fn both_forms_from_c_and_rust() {
    let [form, _] = form_programs();
    let (mut written, mut refused) = (0, 0);
    for example in EXAMPLES {
        let name = path(&format!("examples/{example}.proof"));
        let file = fs::read(&name).expect("a stored example");
        let output = converted("new", &name);
        match yestrwyn_second::to_new(&file) {
            Ok(new) => {
                assert!(output.status.success() && output.stdout == new, "{example}");
                assert_eq!(convert::converted(Form::New, &file).expect("a converted file"), new);
                let store = Path::new(env!("CARGO_TARGET_TMPDIR")).join(format!("{example}.store"));
                fs::write(&store, &new).expect("it is written");
                let back = converted("old", &store);
                let right = yestrwyn_second::to_old(&new).expect("it is converted back");
                assert!(back.status.success() && back.stdout == right, "{example}");
                assert_eq!(convert::converted(Form::Old, &new).expect("a converted file"), right);
                for day in [0, 21_000] {
                    let input = fs::File::open(&store).expect("it is there");
                    let checked = Command::new(form).arg(day.to_string()).stdin(Stdio::from(input)).output();
                    let line = format!("{}\n", yestrwyn_second::check(day, &file).verdict);
                    assert_eq!(String::from_utf8_lossy(&checked.expect("it runs").stdout), line, "{example}");
                }
                written += 1;
            }
            Err(refusal) => {
                assert!(!output.status.success() && output.stdout.is_empty(), "{example}");
                let line = format!("refused {} at {}\n", refusal.reason.number(), refusal.record);
                assert_eq!(String::from_utf8_lossy(&output.stderr), line, "{example}");
                let error = convert::converted(Form::New, &file).expect_err("a refusal");
                assert_eq!(error.to_string(), refusal.to_string());
                refused += 1;
            }
        }
    }
    assert_eq!((written, refused), (12, 1));
}

/// A missing file, a folder, other words, and a full device.
#[test]
fn failed_reads_and_writes_of_a_conversion() {
    let [form, program] = form_programs();
    let good = path("examples/season.proof");
    for name in ["examples/missing.proof", "examples"] {
        let output = converted("new", &path(name));
        assert!(!output.status.success() && output.stdout.is_empty() && !output.stderr.is_empty(), "{name}");
    }
    let good = good.to_string_lossy();
    for (program, words) in [
        (program, ""),
        (program, "new"),
        (program, "newer F"),
        (program, "F new"),
        (program, "old F F"),
        (form, ""),
        (form, "x"),
        (form, "65536"),
        (form, "0 F"),
    ] {
        let words: Vec<String> = words.split_whitespace().map(|word| word.replace('F', &good)).collect();
        let output = Command::new(program).args(&words).stdin(Stdio::null()).output().expect("it runs");
        assert!(!output.status.success() && output.stdout.is_empty(), "{words:?}");
        assert!(String::from_utf8_lossy(&output.stderr).starts_with("usage: "), "{words:?}");
    }
    for (program, words) in [(program, vec!["new", &*good]), (form, vec![DAY])] {
        let full = fs::File::options().write(true).open("/dev/full").expect("a full device");
        let mut program = Command::new(program);
        program.args(words).stdin(Stdio::null()).stdout(Stdio::from(full)).stderr(Stdio::piped());
        let written = program.spawn().and_then(|child| child.wait_with_output()).expect("it runs");
        assert!(!written.status.success());
        assert!(String::from_utf8_lossy(&written.stderr).starts_with("standard output: "));
    }
}

/// What the program `trim` makes of a file on a day.
fn trimmed(day: u16, name: &Path) -> Output {
    Command::new(trim_program()).arg(day.to_string()).arg(name).output().expect("it runs")
}

#[test]
fn trims_from_c_and_rust() {
    let (mut written, mut refused) = (0, 0);
    for (example, day) in EXAMPLES.iter().flat_map(|example| [(example, 0), (example, 21_000)]) {
        let name = path(&format!("examples/{example}.proof"));
        let file = fs::read(&name).expect("a stored example");
        let output = trimmed(day, &name);
        match yestrwyn_second::trim(day, &file) {
            Ok(right) => {
                assert!(output.status.success() && output.stdout == right, "{example} on {day}");
                assert_eq!(trim::trimmed(day, &file).expect("a trimmed file"), right, "{example} on {day}");
                written += 1;
            }
            Err(refusal) => {
                assert!(!output.status.success() && output.stdout.is_empty(), "{example} on {day}");
                assert_eq!(
                    String::from_utf8_lossy(&output.stderr),
                    format!("{refusal}\n"),
                    "{example} on {day}"
                );
                let error = trim::trimmed(day, &file).expect_err("a refusal");
                assert_eq!(error.to_string(), refusal.to_string(), "{example} on {day}");
                refused += 1;
            }
        }
    }
    // Five are accepted on every day, and three on the day of the trip.
    assert_eq!((written, refused), (13, 13));
    // The stored example is what the program writes.
    let stored = fs::read(path("examples/archive.proof")).expect("a stored example");
    assert!(trimmed(21_000, &path("examples/declined.proof")).stdout == stored);
}

/// A missing file, a folder, other words, and a full device.
#[test]
fn failed_reads_and_writes_of_a_trim() {
    for name in ["examples/missing.proof", "examples"] {
        let output = trimmed(0, &path(name));
        assert!(!output.status.success() && output.stdout.is_empty() && !output.stderr.is_empty(), "{name}");
    }
    let good = path("examples/curfew.proof");
    for words in ["", "0", "F", "x F", "-1 F", "65536 F", "0 F F"] {
        let words: Vec<String> =
            words.split_whitespace().map(|word| word.replace('F', &good.to_string_lossy())).collect();
        let output = Command::new(trim_program()).args(&words).output().expect("it runs");
        assert!(!output.status.success() && output.stdout.is_empty(), "{words:?}");
        assert!(String::from_utf8_lossy(&output.stderr).starts_with("usage: "), "{words:?}");
    }
    let full = fs::File::options().write(true).open("/dev/full").expect("a full device");
    let mut program = Command::new(trim_program());
    program.arg(DAY).arg(good).stdout(Stdio::from(full)).stderr(Stdio::piped());
    let written = program.spawn().and_then(|child| child.wait_with_output()).expect("it runs");
    assert!(!written.status.success());
    assert!(String::from_utf8_lossy(&written.stderr).starts_with("standard output: "));
}

/// The calls of the examples' page, as the programs read them: the curfew is lifted and restored, and so is the request; then calls
/// that are refused.
const CALLS: [&str; 10] = ["-1", "+1", "-3", "-1", "+3", "+1", "+1", "-6", "-2", "-65535"];

/// The lines that the program `board` is to print for an example on a day, worked out afresh.
fn board_lines(example: &str, day: u16, calls: &[&str]) -> String {
    let file = fs::read(path(&format!("examples/{example}.proof"))).expect("a stored example");
    let mut afresh = match Afresh::open(day, &file) {
        Ok(afresh) => afresh,
        Err(refusal) => return format!("{refusal}\n"),
    };
    let mut lines = vec![yestrwyn::BoardAnswer::Answered(afresh.answer()).to_string()];
    for call in calls {
        let clause = call[1..].parse().expect("a clause");
        let answer = if call.starts_with('-') { afresh.withdraw(clause) } else { afresh.give_back(clause) };
        lines.push(answer.to_string());
    }
    lines.iter().map(|line| format!("{line}\n")).collect()
}

#[test]
fn boards_from_c_and_rust() {
    for example in EXAMPLES {
        for day in [0, 21_000] {
            let name = path(&format!("examples/{example}.proof"));
            let output = Command::new(board_program()).arg(day.to_string()).arg(&name).args(CALLS).output();
            let output = output.expect("it runs");
            let right = board_lines(example, day, &CALLS);
            assert!(output.status.success(), "{example} on {day}");
            assert_eq!(String::from_utf8_lossy(&output.stdout), right, "{example} on {day}");
            let file = fs::read(&name).expect("a stored example");
            let answers = board::answers(day, file, &CALLS.map(str::to_string)).expect("answers");
            let lines: String = answers.iter().map(|answer| format!("{answer}\n")).collect();
            assert_eq!(lines, right, "{example} on {day}");
        }
    }
    let right = ["clause 10", "none", "clause 10", "none", "none", "none", "clause 10", "refused 21 at 0"];
    let declined = board_lines("declined", 21_000, &CALLS);
    assert_eq!(declined.lines().take(8).collect::<Vec<_>>(), right);
}

/// Words that are no day or no calls, a missing file, a folder, and a full device.
#[test]
fn failed_boards() {
    let good = path("examples/declined.proof");
    let good = good.to_string_lossy();
    for words in ["", "0", "x F", "65536 F", "0 F 1", "0 F -x", "0 F --1", "0 F -+1", "0 F -65536", "0 F +"] {
        let words: Vec<String> = words.split_whitespace().map(|word| word.replace('F', &good)).collect();
        let output = Command::new(board_program()).args(&words).output().expect("it runs");
        assert!(!output.status.success() && output.stdout.is_empty(), "{words:?}");
        assert!(String::from_utf8_lossy(&output.stderr).starts_with("usage: "), "{words:?}");
    }
    for name in ["examples/missing.proof", "examples"] {
        let output = Command::new(board_program()).arg(DAY).arg(path(name)).output().expect("it runs");
        assert!(!output.status.success() && output.stdout.is_empty() && !output.stderr.is_empty(), "{name}");
    }
    let full = fs::File::options().write(true).open("/dev/full").expect("a full device");
    let mut program = Command::new(board_program());
    program.args([DAY, &good, "-0"]).stdout(Stdio::from(full)).stderr(Stdio::piped());
    let written = program.spawn().and_then(|child| child.wait_with_output()).expect("it runs");
    assert!(!written.status.success());
    assert!(String::from_utf8_lossy(&written.stderr).starts_with("standard output: "));
    let calls = |words: &[&str]| {
        board::answers(0, Vec::new(), &words.iter().map(|word| word.to_string()).collect::<Vec<_>>())
    };
    for words in [&["1"][..], &["-"], &["-x"], &[""], &["-0", "x0"], &["-65536"]] {
        assert!(calls(words).expect_err("no call").to_string().starts_with("usage: "), "{words:?}");
    }
}

/// Words that are no day, none, and more than one.
#[test]
fn words_that_are_no_day() {
    let [check, readout, canonical] = programs();
    for program in [check.as_path(), readout, canonical, service_program()] {
        for words in ["", "x", "1x", "-1", "65536", "99999999999999999999"] {
            let mut program = Command::new(program);
            let output = program.args(words.split_whitespace()).stdin(Stdio::null()).output();
            let output = output.expect("it runs");
            assert!(!output.status.success() && output.stdout.is_empty(), "{words}");
            assert!(String::from_utf8_lossy(&output.stderr).starts_with("usage: "), "{words}");
        }
    }
}

/// Reading a folder fails, and writing to a full device: neither ends like a verdict.
#[test]
fn failed_reads_and_writes_from_c() {
    let others = programs().iter().map(|program| (program.as_path(), [DAY].as_slice()));
    for (program, words) in others.chain([(covers_program(), ["0", "0"].as_slice())]) {
        let folder = fs::File::open(path("examples")).expect("the folder");
        let read = Command::new(program).args(words).stdin(Stdio::from(folder)).output().expect("it runs");
        assert!(!read.status.success() && read.stdout.is_empty(), "{}", program.display());
        assert!(String::from_utf8_lossy(&read.stderr).starts_with("standard input: "));
        let file = fs::File::open(path("examples/duty.proof")).expect("a stored example");
        let full = fs::File::options().write(true).open("/dev/full").expect("a full device");
        let written = Command::new(program)
            .args(words)
            .stdin(Stdio::from(file))
            .stdout(Stdio::from(full))
            .stderr(Stdio::piped())
            .spawn()
            .and_then(|child| child.wait_with_output())
            .expect("it runs");
        assert!(!written.status.success(), "{}", program.display());
        assert!(String::from_utf8_lossy(&written.stderr).starts_with("standard output: "));
    }
}

#[test]
fn the_check_from_rust() {
    for example in EXAMPLES {
        let file = fs::read(path(&format!("examples/{example}.proof"))).expect("a stored example");
        assert_eq!(check::verdict(0, &file).expect("a thread") + "\n", verdict(example), "{example}");
    }
    let (example, day) = SEASON;
    let file = fs::read(path(&format!("examples/{example}.proof"))).expect("a stored example");
    assert_eq!(check::verdict(day, &file).expect("a thread") + "\n", verdict(&format!("{example}-{day}")));
}

#[test]
fn the_service_from_c() {
    let program = service_program();
    let files = EXAMPLES.map(|example| path(&format!("examples/{example}.proof")));
    let output = Command::new(program).arg(DAY).args(&files).args(&files).output().expect("it runs");
    assert!(output.status.success());
    let accepted = for_all(|line| {
        let word = if line.starts_with("accepted ") { "accepted" } else { "not accepted" };
        format!("{word}\n")
    });
    assert_eq!(String::from_utf8_lossy(&output.stdout), accepted.repeat(2));
}

/// A file that is missing, a folder, and a full device.
#[test]
fn failed_reads_and_writes_of_the_service() {
    let program = service_program();
    for name in ["examples/missing.proof", "examples"] {
        let read = Command::new(program).arg(DAY).arg(path(name)).output().expect("it runs");
        assert!(!read.status.success() && read.stdout.is_empty() && !read.stderr.is_empty(), "{name}");
    }
    let full = fs::File::options().write(true).open("/dev/full").expect("a full device");
    let mut service = Command::new(program);
    service.arg(DAY).arg(path("examples/duty.proof")).stdout(Stdio::from(full));
    let written = service.stderr(Stdio::piped()).spawn().and_then(|child| child.wait_with_output());
    let written = written.expect("it runs");
    assert!(!written.status.success());
    assert!(String::from_utf8_lossy(&written.stderr).starts_with("standard output: "));
}

#[test]
fn the_service_from_rust() {
    let read = |example| fs::read(path(&format!("examples/{example}.proof"))).expect("a stored example");
    let files = EXAMPLES.map(read);
    let verdicts = service::verdicts(0, &files).expect("a thread");
    let lines: String = verdicts.iter().map(|verdict| format!("{verdict}\n")).collect();
    assert_eq!(lines, for_all(str::to_string));
}

#[test]
fn the_guide_quotes_the_programs() {
    let guide = text("docs/FORMAT.md");
    let quoted = [
        ("c", "comparison/snippets/check.c"),
        ("rust", "yestrwyn/examples/check.rs"),
        ("c", "comparison/snippets/service.c"),
        ("rust", "yestrwyn/examples/service.rs"),
        ("c", "comparison/snippets/readout.c"),
        ("c", "comparison/snippets/merge.c"),
        ("rust", "yestrwyn/examples/merge.rs"),
        ("c", "comparison/snippets/convert.c"),
        ("rust", "yestrwyn/examples/convert.rs"),
        ("c", "comparison/snippets/trim.c"),
        ("rust", "yestrwyn/examples/trim.rs"),
        ("c", "comparison/snippets/board.c"),
        ("rust", "yestrwyn/examples/board.rs"),
    ];
    for (language, program) in quoted {
        let block = format!("```{language}\n{}```\n", text(&format!("rust/{program}")));
        assert!(guide.contains(&block), "docs/FORMAT.md does not quote {program} as it is");
    }
}
