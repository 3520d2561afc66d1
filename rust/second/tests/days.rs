//! Rules in force: which clause is accepted on which day, what refuses a record of kind 8, and what no day alters.

use yestrwyn_second::{check, check_into, covers, readout};
use yestrwyn_types::limits::RECORD_BYTES;
use yestrwyn_types::record::{kind, Record};
use yestrwyn_types::{Cells, Verdict};
use yestrwyn_vectors::examples::{cases, days, Example};
use yestrwyn_vectors::outcome::outcome_on;
use yestrwyn_vectors::repeating::rows_twice;
use yestrwyn_vectors::sketch::{app, neg, pos, Sketch};
use yestrwyn_vectors::stored::groups;
use yestrwyn_vectors::{dated_file, repeating_file, several_file, several_file_of};

/// What a named file of the vectors gives on its day, as the first line of the readout.
fn verdict_of(name: &str) -> String {
    let all = days::examples();
    let Example { day, file, .. } = all.iter().find(|example| example.name == name).expect(name);
    check(*day, file).verdict.to_string()
}

/// A file's verdict on each of some days.
fn verdicts(name: &str, days: &[u16]) -> Vec<String> {
    days.iter().map(|day| verdict_of(&format!("{name}-on-{day}"))).collect()
}

#[test]
fn both_ends_are_included() {
    let (yes, no) = ("accepted 2", "open");
    let at_ends = [no, no, yes, yes, yes, yes, yes, no, no];
    assert_eq!(verdicts("10-to-20", &[0, 9, 10, 11, 15, 19, 20, 21, 65_535]), at_ends);
    assert_eq!(verdicts("15-to-15", &[14, 15, 16]), [no, yes, no]);
    assert_eq!(verdicts("0-to-65535", &[0, 1, 32_768, 65_535]), [yes; 4]);
    assert_eq!(verdicts("0-to-0", &[0, 1, 256, 65_535]), [yes, no, no, no]);
    assert_eq!(verdicts("65535-to-65535", &[0, 255, 65_534, 65_535]), [no, no, no, yes]);
    assert_eq!(verdicts("255-to-256", &[1, 254, 255, 256, 257]), [no, no, yes, yes, no]);
    assert_eq!(verdicts("256-to-511", &[1, 255, 256, 511, 512]), [no, no, yes, yes, no]);
}

#[test]
fn every_use_counts() {
    for (name, empty) in [
        ("left-parent", 2),
        ("right-parent", 2),
        ("with-itself", 5),
        ("factored", 3),
        ("several-left", 2),
        ("several-right", 2),
        ("far-away", 42),
    ] {
        let yes = format!("accepted {empty}");
        assert_eq!(verdicts(name, &[9, 10, 20, 21]), ["open", &yes, &yes, "open"], "{name}");
    }
    assert_eq!(verdicts("unused", &[9, 10, 20, 21]), ["accepted 2"; 4]);
}

#[test]
fn the_lowest_empty_clause_in_force_is_accepted() {
    let [first, second, third] = ["accepted 6", "accepted 7", "accepted 8"];
    assert_eq!(
        verdicts("two-empty-clauses", &[9, 10, 20, 21]),
        ["accepted 5", "accepted 4", "accepted 4", "accepted 5"]
    );
    assert_eq!(
        verdicts("three-empty-clauses", &[9, 10, 14, 15, 20, 21]),
        ["open", first, first, first, first, second]
    );
    assert_eq!(
        verdicts("three-empty-clauses", &[24, 25, 30, 31, 40, 41]),
        [second, second, second, third, third, "open"]
    );
    assert_eq!(verdicts("middle-of-three", &[0, 99, 100, 200, 201]), [second, second, first, first, second]);
    assert_eq!(
        verdicts("none-of-two", &[0, 10, 25, 30, 50]),
        ["open", "accepted 4", "open", "accepted 5", "open"]
    );
    assert_eq!(
        verdicts("empty-input-clause", &[9, 10, 20, 21]),
        ["open", "accepted 0", "accepted 0", "open"]
    );
    assert_eq!(
        verdicts("two-empty-input-clauses", &[9, 10, 21, 30, 31]),
        ["open", "accepted 0", "accepted 1", "accepted 1", "open"]
    );
}

#[test]
fn the_last_record_counts_wherever_it_stands() {
    let (yes, no) = ("accepted 2", "open");
    assert_eq!(verdicts("superseded-by-later-days", &[15, 25, 30, 40, 41]), [no, no, yes, yes, no]);
    assert_eq!(verdicts("superseded-by-earlier-days", &[15, 25, 30, 40]), [yes, no, no, no]);
    assert_eq!(verdicts("superseded-by-always", &[0, 25, 65_535]), [yes; 3]);
    assert_eq!(verdicts("superseded-always", &[0, 25, 65_535]), [no, yes, no]);
    assert_eq!(verdicts("superseded-twice", &[15, 35, 55]), [no, no, yes]);
    assert_eq!(verdicts("superseded-twice-and-back", &[15, 35]), [yes, no]);
    // A step before the superseding record has no other days than one after it.
    assert_eq!(verdicts("window-between-two-steps", &[15, 30, 35]), [no, yes, yes]);
    assert_eq!(verdicts("window-after-all-steps", &[15, 35, 55]), [no, no, yes]);
    assert_eq!(verdicts("windows-in-turn", &[12, 18, 25, 30, 40, 41]), [no, no, no, yes, yes, no]);
    assert_eq!(verdicts("window-in-every-record", &[4094, 4095]), [no, "accepted 0"]);
}

/// One file has a window between records of every two of the kinds 1 to 7. Days 10 to 20 are those of its empty input clause, 30
/// to 40 those that the two parents of clause 6 have in common.
#[test]
fn windows_between_all_kinds() {
    let on_days = |days: &[u16]| verdicts("window-between-all-kinds", days);
    assert_eq!(on_days(&[0, 9, 21, 29, 41, 65_535]), ["open"; 6]);
    assert_eq!(on_days(&[10, 15, 20]), ["accepted 0"; 3]);
    assert_eq!(on_days(&[30, 40]), ["accepted 6"; 2]);
    let all = days::examples();
    let Example { file, .. } =
        all.iter().find(|example| example.name == "window-between-all-kinds-on-30").expect("it");
    let kinds: Vec<u8> = file.chunks_exact(RECORD_BYTES).map(|record| record[0]).collect();
    for one in 1..=7 {
        for other in 1..=7 {
            let met = kinds.windows(3).any(|three| three == [one, kind::WINDOW, other]);
            assert!(met, "no window between kinds {one} and {other}");
        }
    }
    assert!(kinds.iter().skip(1).step_by(2).all(|&kind| kind == kind::WINDOW));
}

/// Each name begins with the reason, or with "stands"; a good record comes after the one that it is about.
#[test]
fn refused_records() {
    let mut met = 0;
    for example in days::examples() {
        let first = example.name.split('-').next().unwrap_or("");
        let about_a_record = example.name.contains("window") && !example.name.starts_with("window");
        if !about_a_record {
            continue;
        }
        met += 1;
        let records = (example.file.len() / RECORD_BYTES) as u16;
        let [kind, what, record, ..] = check(example.day, &example.file).numbers();
        match first {
            "stands" => assert_ne!(kind, 2, "{}", example.name),
            _ => assert_eq!((kind, what.to_string(), record), (2, first.to_string(), records - 2)),
        }
    }
    assert!(met > 50, "{met} files");
}

/// Byte 1 and every byte from field d on, by itself not zero, has a file.
#[test]
fn unused_bytes() {
    let all = days::examples();
    let numbers = all.iter().filter_map(|example| example.name.strip_prefix("4-window-byte-")?.parse().ok());
    let right: Vec<usize> = [1].into_iter().chain(8..16).collect();
    assert_eq!(numbers.collect::<Vec<usize>>(), right);
}

#[test]
fn a_refused_window_alters_nothing() {
    let mut file = Sketch::new();
    let p = file.symbol(0);
    let [one, other] = [pos(app(p, [])), neg(app(p, []))].map(|literal| file.clause(&[literal]));
    file.resolve(one, 1, other, 1);
    file.window(one, 10, 20);
    let standing = file.bytes().to_vec();
    file.window(one, 40, 30);
    let bytes = file.finish();
    let (ours, before) = (outcome_on(15, &bytes), outcome_on(15, &standing));
    assert_eq!(ours.answer.numbers()[..3], [2, 16, 6]);
    assert_eq!(before.answer.verdict, Verdict::Accepted(2));
    assert_eq!(ours.tables(), before.tables());
    assert_eq!(ours.answer.numbers()[3..], before.answer.numbers()[3..]);
}

#[test]
fn a_window_is_no_clause_and_in_no_table() {
    let (mut compared, mut accepted) = (0, 0);
    for seed in 0..1500 {
        let (day, file) = dated_file(seed);
        let ours = outcome_on(day, &file);
        if matches!(ours.answer.verdict, Verdict::Refused { .. }) {
            continue;
        }
        let records = file.chunks_exact(RECORD_BYTES).filter(|record| record[0] != kind::WINDOW);
        let plain = outcome_on(day, &records.collect::<Vec<_>>().concat());
        assert_eq!(ours.answer.numbers()[3..], plain.answer.numbers()[3..], "counts of dated {seed}");
        // Lines after the first have no day in them.
        let lines = |readout: &[u8]| readout.splitn(2, |&byte| byte == b'\n').last().map(<[u8]>::to_vec);
        assert_eq!(lines(&ours.readout), lines(&plain.readout), "lines of dated {seed}");
        compared += 1;
        accepted += usize::from(ours.answer.verdict.is_accepted());
    }
    assert!(compared > 700 && accepted > 200, "{accepted} of {compared} files are accepted");
}

/// Every file of the groups that have no days, deep and long ones among them, and more with steps on several literals and
/// with repeated rows: verdict, counts and tables are those of day 0.
#[test]
fn old_files_give_the_same_on_every_day() {
    let old = groups().into_iter().filter(|group| !group.dated);
    let (names, named): (Vec<_>, Vec<_>) = old.map(|group| (group.name, group.examples)).unzip();
    assert_eq!(names, ["cases", "published", "edges", "refused", "deep", "random", "long"]);
    let mut files: Vec<Vec<u8>> = named.concat().into_iter().map(|example| example.file).collect();
    files.extend((0..300).flat_map(|seed| [several_file(seed), repeating_file(seed)]));
    files.extend((0..10).map(|seed| rows_twice(&several_file_of(seed, 300)).file));
    // A damaged file may have a record of kind 8.
    files.retain(|file| file.chunks_exact(RECORD_BYTES).all(|record| record[0] != kind::WINDOW));
    assert!(files.len() > 2200, "{} files", files.len());
    for (place, file) in files.iter().enumerate() {
        let mut cells = [Cells::new(), Cells::new()];
        let [ours, theirs] = &mut cells;
        let first = check_into(0, file, &mut ours.lend());
        for day in [[1, 255, 256, 21_000, 65_534][place % 5], 65_535] {
            assert_eq!(check_into(day, file, &mut theirs.lend()), first, "file {place} on day {day}");
            assert_eq!(ours, theirs, "tables of file {place} on day {day}");
        }
    }
}

#[test]
fn refusals_tables_and_coverings_do_not_depend_on_the_day() {
    for seed in 0..300 {
        let (day, file) = dated_file(seed);
        let ours = outcome_on(day, &file);
        for other in [0, day.wrapping_add(1), day.wrapping_sub(2), 65_535] {
            let theirs = outcome_on(other, &file);
            assert_eq!(ours.tables(), theirs.tables());
            assert_eq!(ours.works, theirs.works);
            if let refused @ Verdict::Refused { .. } = ours.answer.verdict {
                assert_eq!(refused, theirs.answer.verdict);
            }
        }
        // A window moves no clause, so a file without any answers the same.
        let plain: Vec<&[u8]> =
            file.chunks_exact(RECORD_BYTES).filter(|record| record[0] != kind::WINDOW).collect();
        if !matches!(ours.answer.verdict, Verdict::Refused { .. }) {
            assert_eq!(covers(&file, 0, 1), covers(&plain.concat(), 0, 1));
        }
    }
}

#[test]
fn the_readout_goes_by_the_day_in_its_first_line_only() {
    let mut file = cases::case_a();
    file.extend_from_slice(&Record::new(kind::WINDOW, 0, &[1, 10, 20]).to_bytes());
    let [within, outside] = [10, 21].map(|day| String::from_utf8(readout(day, &file)).expect("text"));
    assert!(within.starts_with("accepted 4\n0 1 +s0(s2)\n"), "{within}");
    assert_eq!(outside, within.replace("accepted 4", "open"));
}
