//! Random files with windows: equal seeds give equal files, and the days matter.

use yestrwyn_second::check;
use yestrwyn_types::record::kind;
use yestrwyn_types::Verdict;
use yestrwyn_vectors::{dated_file, random_file};

/// How many records of kind 8 a file has.
fn windows(file: &[u8]) -> usize {
    file.iter().step_by(16).filter(|&&byte| byte == kind::WINDOW).count()
}

#[test]
fn equal_seeds_give_equal_files() {
    for seed in 0..300 {
        assert_eq!(dated_file(seed), dated_file(seed));
        assert_eq!(windows(&random_file(seed)), 0);
    }
}

#[test]
fn most_files_have_windows_and_many_are_other_on_another_day() {
    let (mut with, mut accepted, mut refused, mut other, mut ends) = (0, 0, 0, 0, 0);
    for seed in 0..2000 {
        let (day, file) = dated_file(seed);
        let verdict = check(day, &file).verdict;
        let around = [day.wrapping_sub(1), day.wrapping_add(1)].map(|day| check(day, &file).verdict);
        with += usize::from(windows(&file) > 0);
        accepted += usize::from(verdict.is_accepted());
        refused += usize::from(matches!(verdict, Verdict::Refused { .. }));
        other += usize::from(around.iter().any(|&around| around != verdict));
        ends += usize::from(!(3..=u16::MAX - 3).contains(&day));
    }
    assert!(with > 1500, "{with} files with windows");
    assert!(accepted > 300 && refused > 300, "{accepted} accepted, {refused} refused");
    assert!(
        other > 200 && ends > 300,
        "{other} with another verdict on another day, {ends} on the first or last days"
    );
}
