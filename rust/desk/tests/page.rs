//! The pages show what the command prints.

mod common;

use std::env;
use std::path::Path;
use std::process::Command;
use std::{ffi::OsString, fs};

use common::root;

/// The commands that a page shows, each with what it says is printed.
fn shown(page: &str) -> Vec<(String, String)> {
    let mut shown: Vec<(String, String)> = Vec::new();
    let mut inside = false;
    for line in page.lines() {
        match (line, inside) {
            ("```console", false) => inside = true,
            ("```", true) => inside = false,
            (line, true) => match (line.strip_prefix("$ "), shown.last_mut()) {
                (Some(command), _) => shown.push((command.to_string(), String::new())),
                (None, Some((_, output))) => *output += &format!("{line}\n"),
                (None, None) => panic!("output without a command"),
            },
            _ => {}
        }
    }
    shown
}

/// What a command prints when the built one is found first.
fn printed(command: &str) -> String {
    let folder = Path::new(env!("CARGO_BIN_EXE_yestrwyn")).parent().expect("a folder");
    let mut path = OsString::from(folder);
    path.push(":");
    path.push(env::var_os("PATH").unwrap_or_default());
    let output = Command::new("sh").args(["-c", command]).env("PATH", path).current_dir(root()).output();
    String::from_utf8(output.expect("a shell").stdout).expect("text")
}

#[test]
fn the_pages_show_what_is_printed() {
    for (page, least) in [("docs/COMMAND.md", 7), ("examples/README.md", 2)] {
        let text = fs::read_to_string(root().join(page)).expect("the page");
        let shown = shown(&text);
        assert!(shown.len() >= least, "{page}: {}", shown.len());
        for (command, output) in shown {
            assert_eq!(printed(&command), output, "{page}: {command}");
        }
    }
}
