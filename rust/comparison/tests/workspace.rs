//! A workspace kept between files gives the answers and the tables of the plain check, whatever it holds.

use std::fs;
use std::mem::size_of;
use std::path::Path;

use yestrwyn::exported::{check_numbers_with, Arrays, Nodes, Origins, Values};
use yestrwyn::{check_here, Answer, Cells, Reason, Tables, Verdict, Workspace, LENGTHS};
use yestrwyn_comparison::compare::day_and_file_of;
use yestrwyn_comparison::services::{dirty, DIRT};
use yestrwyn_vectors::examples::{cases, deep};
use yestrwyn_vectors::stored::groups;

/// The days and files of every stored vector.
fn stored() -> Vec<(u16, Vec<u8>)> {
    let examples = groups().into_iter().flat_map(|group| group.examples);
    examples.map(|example| (example.day, example.file)).collect()
}

/// The plain check of a file: its answer and its tables.
fn plain(day: u16, file: &[u8]) -> (Answer, Cells) {
    let mut cells = Cells::new();
    (check_here(day, file, &mut cells.lend()), cells)
}

/// Checks a file on day 0 with both sets of tables, and compares it with the plain check.
fn same(workspace: &mut Workspace, file: &[u8]) {
    same_on(workspace, 0, file);
}

/// The same on a day.
fn same_on(workspace: &mut Workspace, day: u16, file: &[u8]) {
    let (answer, tables) = plain(day, file);
    assert_eq!(workspace.check_here(day, file), answer);
    let refused_whole = matches!(answer.verdict, Verdict::Refused { reason: Reason::Length, .. });
    assert!(refused_whole || *workspace.cells() == tables);
    let mut cells = Cells::new();
    assert_eq!(workspace.check_into_here(day, file, &mut cells.lend()), answer);
    assert!(cells == tables);
}

/// Runs a test with stack enough for every file.
fn with_stack(test: impl FnOnce() + Send) {
    yestrwyn::with_stack(test).expect("a thread");
}

#[test]
fn one_workspace_for_all_stored_vectors() {
    with_stack(|| {
        let (mut workspace, files) = (dirty(), stored());
        files.iter().for_each(|(day, file)| same_on(&mut workspace, *day, file));
        files.iter().rev().for_each(|(day, file)| same_on(&mut workspace, *day, file));
    });
}

#[test]
fn a_dirty_workspace_for_each_file() {
    with_stack(|| {
        let named = cases::examples().into_iter().map(|example| (example.day, example.file));
        for (day, file) in named.chain((0..100).map(day_and_file_of)) {
            same_on(&mut dirty(), day, &file);
            same_on(&mut Workspace::new(), day, &file);
        }
    });
}

#[test]
fn one_workspace_for_random_files() {
    with_stack(|| {
        let mut workspace = dirty();
        for seed in 0..2000 {
            let (day, file) = day_and_file_of(seed);
            same_on(&mut workspace, day, &file);
        }
    });
}

#[test]
fn on_a_thread_of_its_own() {
    let mut workspace = dirty();
    let named = deep::examples().into_iter().map(|example| (example.day, example.file));
    for (day, file) in named.chain((0..100).map(day_and_file_of)) {
        let (mut cells, mut second) = (Cells::new(), Cells::new());
        let answer = yestrwyn_second::check_into(day, &file, &mut second.lend());
        assert_eq!(workspace.check(day, &file).expect("a thread"), answer);
        assert_eq!(workspace.check_into(day, &file, &mut cells.lend()).expect("a thread"), answer);
        assert!(cells == second);
    }
}

#[test]
fn lengths_of_files() {
    with_stack(|| {
        let mut workspace = dirty();
        for length in [0, 1, 15, 16, 17, 65_520, 65_536, 65_537, 65_552, 70_000] {
            same(&mut workspace, &vec![0; length]);
            same(&mut workspace, &cases::case_a());
        }
    });
}

#[test]
fn short_tables_are_refused_with_2() {
    with_stack(|| {
        let mut workspace = dirty();
        for (short, least) in LENGTHS.into_iter().enumerate() {
            for length in [0, 1, least - 1] {
                let mut lengths = LENGTHS;
                lengths[short] = length;
                let mut tables = lengths.map(|cells| vec![7; cells]);
                let [symbols, rows, clauses, bindings] = &mut tables;
                let mut lent = Tables { symbols, rows, clauses, bindings };
                let answer = workspace.check_into_here(0, &cases::case_a(), &mut lent);
                assert_eq!(answer, Answer::refused_whole(Reason::Table));
                assert!(tables.iter().flatten().all(|&cell| cell == 7));
                let Arrays { nodes, origins, .. } = workspace.lend();
                assert!(nodes.iter().chain(origins.iter()).all(|&cell| cell == DIRT));
            }
        }
        same(&mut workspace, &cases::case_a());
    });
}

#[test]
fn short_answers_touch_nothing() {
    with_stack(|| {
        let mut workspace = dirty();
        for length in 0..7 {
            let (mut cells, mut answer) = (Cells::new(), vec![7; length]);
            check_numbers_with(0, &cases::case_a(), &mut cells.lend(), &mut workspace.lend(), &mut answer);
            assert!(cells == Cells::new() && answer.iter().all(|&cell| cell == 7));
            let Arrays { nodes, origins, values } = workspace.lend();
            assert!(nodes.iter().chain(origins.iter()).chain(values.iter()).all(|&cell| cell == DIRT));
        }
    });
}

/// The lengths of the arrays are those of the header: the library is not told them.
#[test]
fn lengths_of_the_header() {
    let path = Path::new(env!("CARGO_MANIFEST_DIR")).join("../../crates/checker_c/checker.h");
    let header = fs::read_to_string(path).expect("the header");
    let bytes = [size_of::<Nodes>(), size_of::<Origins>(), size_of::<Values>()];
    for (name, bytes) in ["NODES", "ORIGINS", "VALUES"].into_iter().zip(bytes) {
        assert!(header.contains(&format!("#define CHECKER_{name} {}\n", bytes / 2)), "{name}");
    }
}
