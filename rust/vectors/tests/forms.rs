//! Random files of both forms: all answers are met often; and the stored vectors of forms are what the program writes.

use std::collections::HashSet;
use std::fs;

use yestrwyn_second::{check, check_form, to_new};
use yestrwyn_types::{Cells, Form, Verdict};
use yestrwyn_vectors::forms::{convert_into, expected, files, random_form, GROUP};
use yestrwyn_vectors::stored::results_path;
use yestrwyn_vectors::{dated_file, widened};

#[test]
fn all_answers_are_met() {
    for form in Form::ALL {
        let (mut written, mut too_many, mut own, mut accepted) = (0, 0, HashSet::new(), 0);
        for seed in 0..3000 {
            let file = random_form(form, seed).file;
            assert_eq!(file, random_form(form, seed).file, "seed {seed}");
            let numbers = convert_into(form, &file, &mut Cells::new().lend(), &mut vec![0; 65_536]).numbers();
            match numbers {
                [0, ..] => written += 1,
                [_, 22, 0, 0] => too_many += 1,
                [_, reason, ..] => drop(own.insert(reason)),
            }
            let day = random_form(form, seed).day;
            accepted += usize::from(check_form(form, day, &file).verdict.is_accepted());
        }
        let right = written > 1800 && too_many > 15 && accepted > 400;
        assert!(right, "{form:?}: {written} written, {too_many} with 22, {accepted} accepted");
        assert!(
            [3, 4, 5, 8, 16].iter().all(|reason| form == Form::Old || own.contains(reason)),
            "{form:?}: {own:?}"
        );
        assert!([5, 8, 10, 16].iter().all(|reason| own.contains(reason)), "{form:?}: {own:?}");
    }
}

/// What is made of a file that stands, untested, is its conversion.
#[test]
fn widened_files_are_converted_ones() {
    let mut standing = 0;
    for seed in 0..1000 {
        let (day, file) = dated_file(seed);
        if !matches!(check(day, &file).verdict, Verdict::Refused { .. }) {
            assert_eq!(to_new(&file), Ok(widened(&file)), "seed {seed}");
            standing += 1;
        }
    }
    assert!(standing > 500, "{standing} stand");
}

#[test]
fn stored_forms_are_up_to_date() {
    let advice = "write them anew with `cargo run --release --bin vectors`";
    let text = fs::read_to_string(results_path(GROUP)).expect("the stored forms");
    let ours = expected(&files());
    let differs = text.lines().zip(ours.lines()).find(|(stored, ours)| stored != ours);
    assert_eq!(differs, None, "{advice}");
    assert_eq!(text.len(), ours.len(), "{advice}");
    assert!(text.len() < 300_000, "{} bytes", text.len());
}

#[test]
fn every_answer_has_vectors() {
    let text = expected(&files());
    let numbers = |word: &str| -> Vec<String> {
        text.lines().filter_map(|line| line.strip_prefix(word)).map(str::to_string).collect()
    };
    let (answers, conversions) = (numbers("answer "), numbers("conversion "));
    assert_eq!((answers.len(), conversions.len()), (files().len(), files().len()));
    let count = |all: &[String], start: &str| all.iter().filter(|answer| answer.starts_with(start)).count();
    for reason in ["2 1 ", "2 3 ", "2 4 ", "2 5 ", "2 7 ", "2 16 ", "0 ", "1 "] {
        assert!(count(&answers, reason) >= 3, "{} answers begin with {reason}", count(&answers, reason));
    }
    for start in
        ["2 1 1 0", "2 3 1 ", "2 4 1 ", "2 5 1 ", "2 7 1 ", "2 16 1 ", "2 22 0 0", "0 65536 ", "0 65520 "]
    {
        assert!(
            count(&conversions, start) >= 1,
            "{} conversions begin with {start}",
            count(&conversions, start)
        );
    }
    assert!(count(&conversions, "2 22 0 0") >= 6 && count(&conversions, "0 ") > 200);
    let names: HashSet<String> = files().into_iter().map(|file| file.name).collect();
    assert_eq!(names.len(), answers.len(), "every file has a name of its own");
}
