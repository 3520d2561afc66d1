//! `yestrwyn report`: a page for the booking; and the stored page and drawing of the curfew.

mod common;

use std::fs;

use common::{example, example_text, run, run_with, Folder};

/// The command that writes the stored page, and the one that writes the stored drawing.
const PAGE: [&str; 6] =
    ["report", "--names", "examples/curfew.names", "examples/curfew.proof", "-o", "examples/curfew.html"];
const DRAWING: [&str; 5] = ["draw", "--svg", "--names", "examples/curfew.names", "examples/curfew.proof"];

#[test]
fn the_stored_page_is_what_the_command_writes() {
    let folder = Folder::new();
    let page = folder.at("page.html");
    let mut words = PAGE.map(AsRef::as_ref);
    words[5] = page.as_os_str();
    let written = run(words);
    assert_eq!((written.status, written.stdout.as_str(), written.stderr.as_str()), (0, "", ""));
    let written = fs::read_to_string(page).expect("a page");
    assert!(written == example_text("curfew.html"), "write it anew: yestrwyn {}", PAGE.join(" "));
}

#[test]
fn the_stored_drawing_is_what_the_command_writes() {
    let drawn = run(DRAWING);
    let advice = format!("write it anew: yestrwyn {} > examples/curfew.svg", DRAWING.join(" "));
    assert!(drawn.stdout == example_text("curfew.svg"), "{advice}");
    assert!(example_text("curfew.html").contains(&drawn.stdout), "the page has the same drawing");
}

#[test]
fn a_page_for_each_verdict() {
    let page = |words: &[&str], status: i32, title: &str| {
        let run = run(["report"].iter().chain(words).chain(&["-o", "-"]));
        assert_eq!((run.status, run.stderr.as_str()), (status, ""), "{words:?}");
        assert!(run.stdout.contains(&format!("<h1>{title}</h1>")), "{words:?}");
        run.stdout
    };
    let declined = page(&["--day", "2027-07-01", "examples/declined.proof"], 0, "No lawful plan");
    assert!(declined.contains("in force on day 21000 (2027-07-01)"));
    let season = page(&["--day=0", "examples/season.proof"], 1, "Nothing is shown");
    assert!(season.contains("are not in force"));
    let refused = page(&["examples/refused.proof"], 2, "The file is faulty");
    assert!(refused.contains("refused 8 at 22"));
}

#[test]
fn a_page_without_names_and_from_standard_input() {
    let file = example("curfew.proof");
    let page = run_with(["report", "-", "-o", "-"], &file);
    assert!(page.status == 0 && page.stdout.contains("<dt>file</dt><dd>standard input</dd>"));
    assert!(page.stdout.contains("+s0(s6)") && !page.stdout.contains("departs"));
    let long = run_with(["report", "-", "-o", "-"], &[1; 200_000]);
    assert!(
        long.status == 2
            && long.stdout.contains("over 65,536 bytes")
            && !long.stdout.contains("SHA-256</dt>")
    );
}

#[test]
fn what_is_not_written() {
    let folder = Folder::new();
    let there = folder.write("page.html", "as it was");
    let into = |words: &[&str]| {
        let path = there.to_str().expect("text");
        let words: Vec<&str> = ["report"].iter().chain(words).chain(&["-o", path]).copied().collect();
        let run = run(words);
        assert_eq!(fs::read_to_string(&there).expect("a file"), "as it was");
        run
    };
    into(&["missing"]).fails("missing: there is no such file");
    let asked = into(&["examples/season.proof"]);
    assert!(asked.status == 3 && asked.stderr.ends_with("give --day\n"), "{asked:?}");
    into(&["--names", "examples/curfew.proof", "examples/curfew.proof"]);
    run(["report", "examples/curfew.proof"])
        .fails("-o FILE says where to write, or -o - for standard output: see 'yestrwyn help report'");
    let names = folder.write("names", "s0 departs\n");
    let names = names.to_str().expect("text");
    let over = run(["report", "--names", names, "examples/curfew.proof", "-o", names]);
    assert!(over.status == 3 && over.stderr.contains("it is read, and is not written over"), "{over:?}");
    let full = run(["report", "examples/curfew.proof", "-o", "/dev/full"]);
    full.fails("/dev/full: no space left on the device");
}
