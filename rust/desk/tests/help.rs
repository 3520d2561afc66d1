//! The help, the version, and words that are not understood.

mod common;

use std::fs;

use common::{root, run};

/// The subcommands that the general help lists.
fn subcommands() -> Vec<String> {
    let help = run(["help"]).stdout;
    let lines = help.lines().filter_map(|line| line.strip_prefix("    yestrwyn "));
    let names =
        lines.filter_map(|line| line.split(' ').next()).filter(|name| !["help", "--version"].contains(name));
    names.map(str::to_string).collect()
}

#[test]
fn the_general_help() {
    let help = run(["help"]);
    assert_eq!((help.status, help.stderr.as_str()), (0, ""));
    assert_eq!(run(["--help"]), help);
    assert_eq!(run(["-h"]), help);
    assert!(help.stdout.contains("What is proved: ") && help.stdout.contains("1970-01-01, which is day 0"));
}

#[test]
fn every_subcommand_says_what_is_proved() {
    let names = subcommands();
    assert!(["check", "readout", "stats", "covers", "merge", "trim", "convert"]
        .iter()
        .all(|name| names.contains(&name.to_string())));
    for name in names {
        let help = run(["help", &name]);
        assert_eq!((help.status, help.stderr.as_str()), (0, ""), "{name}");
        assert!(help.stdout.starts_with(&format!("yestrwyn {name} ")), "{name}");
        for part in ["\nProved: ", "\nNot proved: ", "\nExit status: "] {
            assert!(help.stdout.contains(part), "{name} has no {part}");
        }
        assert_eq!(run([&name, "--help"]), help);
        assert_eq!(run([&name, "file", "-h"]), help);
    }
}

#[test]
fn lines_of_the_help_are_short() {
    let names = subcommands();
    let helps = names.iter().map(|name| run(["help", name]).stdout).chain([run(["help"]).stdout]);
    for help in helps {
        let long: Vec<&str> = help.lines().filter(|line| line.chars().count() > 115).collect();
        assert!(long.is_empty(), "{long:#?}");
    }
}

#[test]
fn the_page_has_every_subcommand() {
    let page = fs::read_to_string(root().join("docs/COMMAND.md")).expect("the page");
    for name in subcommands() {
        assert!(page.contains(&format!("\n### {name}\n")), "{name}");
    }
}

#[test]
fn the_version() {
    assert_eq!(run(["--version"]).stdout, format!("yestrwyn {}\n", env!("CARGO_PKG_VERSION")));
    assert_eq!(run(["-V"]), run(["--version"]));
}

#[test]
fn words_that_are_not_understood() {
    run(["chekc", "a"]).fails("unknown subcommand 'chekc': 'yestrwyn help' lists them");
    run(["help", "chekc"]).fails("unknown subcommand 'chekc': 'yestrwyn help' lists them");
    run(["check", "--jsn", "a"]).fails("unknown option '--jsn': see 'yestrwyn help check'");
    run(["check", "--day", "1", "--day", "2", "a"]).fails("--day is given twice: see 'yestrwyn help check'");
    run(["readout", "--day"]).fails("--day takes a value: see 'yestrwyn help readout'");
    run(["--json"]).fails("unknown subcommand '--json': 'yestrwyn help' lists them");
    run([""; 0]).fails("a subcommand is wanted: 'yestrwyn help' lists them");
}
