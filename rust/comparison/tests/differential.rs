//! The proved check, plain and for services, and the second implementation give equal answers and equal cells.
//!
//! Every test runs in a thread with a larger stack than a test's own 2 MiB: see `yestrwyn::with_stack`.

use std::fs;

use yestrwyn::exported::check_numbers;
use yestrwyn::{check, check_into, Cells, Tables, Workspace, LENGTHS};
use yestrwyn_comparison::compare::{compare, day_and_file_of, lengths_of, Lengths, Pair};
use yestrwyn_types::record::kind;
use yestrwyn_vectors::examples::{cases, days, heavy, Example};
use yestrwyn_vectors::stored::{day_and_file, groups, pack_path, unpack};
use yestrwyn_vectors::{damage, dated_file, random_file};

/// The days and files of every stored pack.
fn stored() -> Vec<(u16, Vec<u8>)> {
    let mut all = Vec::new();
    for group in groups() {
        let pack = fs::read(pack_path(group.name)).expect("a stored pack");
        for entry in unpack(&pack).expect("a whole pack") {
            let dated = if group.dated { day_and_file(entry) } else { Some((0, entry)) };
            let (day, file) = dated.expect("an entry with a day");
            all.push((day, file.to_vec()));
        }
    }
    all
}

/// Runs a test with stack enough for every file.
fn with_stack(test: impl FnOnce() + Send) {
    yestrwyn::with_stack(test).expect("a thread");
}

/// Compares a file on day 0, with cells past the named parts.
fn same(pair: &mut Pair, file: &[u8], lengths: Lengths) {
    same_on(pair, 0, file, lengths);
}

/// The same on a day; gives the kind of answer.
fn same_on(pair: &mut Pair, day: u16, file: &[u8], lengths: Lengths) -> Option<u16> {
    let outcome = pair.compare(day, file, lengths, 0xabcd);
    assert!(outcome.is_ok(), "{outcome:?} on day {day} with {lengths:?} on {file:02x?}");
    outcome.unwrap_or(None)
}

#[test]
fn all_stored_vectors() {
    with_stack(|| {
        let mut pair = Pair::default();
        let files = stored();
        assert!(files.len() > 1000, "{} files", files.len());
        for (day, file) in &files {
            same_on(&mut pair, *day, file, Lengths::longer(0));
            same_on(&mut pair, *day, file, Lengths::longer(5));
        }
    });
}

#[test]
fn stored_vectors_damaged() {
    with_stack(|| {
        let mut pair = Pair::default();
        for ((day, file), seed) in stored().iter().zip(0..) {
            same_on(&mut pair, *day, &damage(file, seed), Lengths::longer(1));
        }
    });
}

#[test]
fn heavy_files() {
    with_stack(|| {
        let mut pair = Pair::default();
        for example in heavy::examples() {
            same(&mut pair, &example.file, Lengths::longer(2));
        }
    });
}

#[test]
fn random_and_damaged_files() {
    with_stack(|| {
        let mut pair = Pair::default();
        for seed in 0..4000 {
            let (day, file) = day_and_file_of(seed);
            same_on(&mut pair, day, &file, lengths_of(seed));
        }
    });
}

#[test]
fn short_tables() {
    with_stack(|| {
        let mut pair = Pair::default();
        for (short, named) in LENGTHS.into_iter().enumerate() {
            for length in [0, 1, named - 1, named] {
                let mut lengths = Lengths::longer(3);
                lengths.tables[short] = length;
                same(&mut pair, &cases::case_a(), lengths);
                same(&mut pair, &[0; 15], lengths);
            }
        }
    });
}

#[test]
fn short_answers_touch_nothing() {
    with_stack(|| {
        for length in 0..7 {
            let mut tables = LENGTHS.map(|cells| vec![7; cells]);
            let mut answer = vec![7; length];
            let [symbols, rows, clauses, bindings] = &mut tables;
            let mut lent = Tables { symbols, rows, clauses, bindings };
            check_numbers(0, &cases::case_a(), &mut lent, &mut answer);
            assert!(tables.iter().flatten().chain(&answer).all(|&cell| cell == 7));
            assert_eq!(
                compare(0, &cases::case_a(), Lengths { answer: length, ..Lengths::longer(1) }),
                Ok(())
            );
        }
    });
}

#[test]
fn long_files_are_refused_with_1() {
    with_stack(|| {
        let mut pair = Pair::default();
        for length in [0, 1, 16, 17, 65_520, 65_536, 65_537, 65_552, 70_000] {
            same(&mut pair, &vec![0; length], Lengths::longer(1));
        }
    });
}

#[test]
fn the_value_is_the_numbers() {
    for seed in 0..200 {
        let damaged = (0, damage(&random_file(seed), seed));
        for (day, file) in [damaged, dated_file(seed)] {
            let (mut ours, mut theirs) = (Cells::new(), Cells::new());
            let second = yestrwyn_second::check_into(day, &file, &mut theirs.lend());
            assert_eq!(check_into(day, &file, &mut ours.lend()).expect("a thread"), second);
            assert_eq!(check(day, &file).expect("a thread"), second);
            assert_eq!(ours, theirs);
        }
    }
}

/// Files with windows, on the days around theirs too.
#[test]
fn files_with_windows_on_several_days() {
    with_stack(|| {
        let (mut pair, mut kinds) = (Pair::default(), [0; 3]);
        let mut on_days = |day: u16, file: &[u8], days: &[u16]| {
            for other in days.iter().copied().chain([day.wrapping_sub(1), day, day.wrapping_add(1)]) {
                let kind = same_on(&mut pair, other, file, Lengths::longer(1)).expect("an answer");
                kinds[usize::from(kind)] += 1;
            }
        };
        for Example { day, file, .. } in days::examples() {
            on_days(day, &file, &[0, 9, 10, 20, 21, 65_535]);
        }
        for seed in 0..1000 {
            let (day, file) = dated_file(seed);
            on_days(day, &file, &[]);
            on_days(day, &damage(&file, seed), &[]);
        }
        assert!(kinds.iter().all(|&count| count > 500), "{kinds:?} open, accepted and refused");
    });
}

/// A file without windows gets the same answer on every day.
#[test]
fn old_files_on_other_days() {
    with_stack(|| {
        let mut workspace = Workspace::new();
        for example in groups().into_iter().filter(|group| !group.dated).flat_map(|group| group.examples) {
            let numbers = example.file.iter().step_by(16).copied();
            // A damaged file may have one.
            if numbers.into_iter().any(|kind| kind == kind::WINDOW) {
                continue;
            }
            let first = yestrwyn_second::check(0, &example.file);
            for day in [0, 1, 255, 256, 21_000, 65_535] {
                assert_eq!(workspace.check_here(day, &example.file), first, "{} on {day}", example.name);
            }
        }
    });
}
