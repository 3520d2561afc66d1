//! The page for authors of planners shows what is printed, command by command, in a folder that has the files of the page.

mod common;

use std::ffi::OsString;
use std::path::Path;
use std::process::Command;
use std::{env, fs};

use common::{example, root, Folder};

/// The blocks of a language on the page.
fn blocks(page: &str, language: &str) -> Vec<String> {
    let opening = format!("```{language}\n");
    let after = page.split(&opening).skip(1);
    after.map(|text| text.split("```\n").next().expect("a block ends").to_string()).collect()
}

/// Each command of a console, with what is printed under it.
fn commands(block: &str) -> Vec<(String, String)> {
    let mut commands: Vec<(String, String)> = Vec::new();
    for line in block.lines() {
        match (line.strip_prefix("$ "), commands.last_mut()) {
            (Some(command), _) => commands.push((command.to_string(), String::new())),
            (None, Some((_, output))) => *output += &format!("{line}\n"),
            (None, None) => panic!("{line:?} stands before any command"),
        }
    }
    commands
}

/// The folder of the page: the problem with its stored proof, examples, and the program of the page.
fn folder(page: &str) -> Folder {
    let folder = Folder::new();
    for name in ["rulebook.dfg", "rulebook.spass"] {
        folder.write(name, fs::read(root().join("rust/spass/problems").join(name)).expect("a problem"));
    }
    for name in ["refused.proof", "refused.names", "writer.py"] {
        folder.write(Path::new("examples").join(name), example(name));
    }
    folder.write("own.py", blocks(page, "python").concat());
    folder
}

/// What a command prints, errors too, when the built command is found first.
fn printed(folder: &Folder, command: &str) -> String {
    let mut path = OsString::from(Path::new(env!("CARGO_BIN_EXE_yestrwyn")).parent().expect("a folder"));
    path.push(":");
    path.push(env::var_os("PATH").unwrap_or_default());
    let command = format!("exec 2>&1\n{command}");
    let output =
        Command::new("sh").args(["-c", &command]).env("PATH", path).current_dir(folder.path()).output();
    String::from_utf8(output.expect("a shell").stdout).expect("text")
}

/// Is a program that a command names installed? The stored proof stands in for what SPASS prints.
fn can_run(command: &str) -> bool {
    let solver = command.split_once("--solver ").map(|(_, solver)| solver);
    let program = solver.or(command.starts_with("PYTHONPATH").then_some("python3"));
    program.is_none_or(|program| Command::new(program).arg("--version").output().is_ok())
}

#[test]
fn the_page_shows_what_is_printed() {
    let page = fs::read_to_string(root().join("docs/PLANNERS.md")).expect("the page");
    let folder = folder(&page);
    let all: Vec<(String, String)> =
        blocks(&page, "console").iter().flat_map(|block| commands(block)).collect();
    assert!(all.len() >= 12, "{}", all.len());
    // Files that were not written, because a program is missing.
    let mut missing: Vec<String> = Vec::new();
    for (command, output) in all {
        let file = command.split_once(" > ").map(|(_, file)| file.to_string());
        if let Some(spass) = command.strip_suffix(" > rulebook.spass") {
            let stored = fs::read_to_string(folder.at("rulebook.spass")).expect("a proof");
            assert_eq!(stored.lines().next(), Some(spass));
        } else if can_run(&command) && !missing.iter().any(|file| command.contains(file)) {
            assert_eq!(printed(&folder, &command), output, "{command}");
        } else {
            eprintln!("not run: {command}");
            missing.extend(file);
        }
    }
}

#[test]
fn the_rules_on_the_page_are_those_of_the_problem() {
    let page = fs::read_to_string(root().join("docs/PLANNERS.md")).expect("the page");
    let problem = fs::read_to_string(root().join("rust/spass/problems/rulebook.dfg")).expect("the problem");
    let shown: Vec<String> = blocks(&page, "dfg");
    assert_eq!(shown.len(), 2);
    for line in shown.iter().flat_map(|block| block.lines()) {
        assert!(problem.lines().any(|other| other == line), "{line}");
    }
}
