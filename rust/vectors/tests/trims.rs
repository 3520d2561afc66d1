//! Files made to be trimmed: all answers are met often, and what is put in is what goes; and the stored vectors of trims are what the
//! program writes.

use std::collections::HashSet;
use std::fs;

use yestrwyn_second::{check, trim};
use yestrwyn_types::record::kind;
use yestrwyn_types::{Reason, Verdict};
use yestrwyn_vectors::examples::trims::examples;
use yestrwyn_vectors::stored::results_path;
use yestrwyn_vectors::trims::{damaged_trim, expected, files, GROUP};
use yestrwyn_vectors::{padded, trimming_file};

/// How many records of a kind a file has.
fn of_kind(file: &[u8], wanted: u8) -> usize {
    file.iter().step_by(16).filter(|&&byte| byte == wanted).count()
}

/// What the random files give.
#[derive(Default, Debug)]
struct Met {
    /// Trimmed, trimmed to the same bytes, and open on the day.
    written: usize,
    whole: usize,
    open: usize,
    /// With a step of kind 6 or 7 that is kept, and with days that are kept and days that go.
    factors: usize,
    several: usize,
    days: usize,
    fewer_days: usize,
    /// With a clause number or a row over 255 before.
    long: usize,
}

#[test]
fn all_answers_are_met() {
    let (mut met, mut own) = (Met::default(), HashSet::new());
    for seed in 0..3000 {
        let (day, file) = trimming_file(seed);
        assert_eq!((day, file.clone()), trimming_file(seed), "seed {seed}");
        match trim(day, &file) {
            Ok(trimmed) => {
                met.written += 1;
                met.whole += usize::from(trimmed == file);
                met.factors += usize::from(of_kind(&trimmed, kind::FACTOR) > 0);
                met.several += usize::from(of_kind(&trimmed, kind::RESOLVE_SEVERAL) > 0);
                let days = of_kind(&trimmed, kind::WINDOW);
                met.days += usize::from(days > 0);
                met.fewer_days += usize::from(days < of_kind(&file, kind::WINDOW));
                met.long += usize::from(file.len() > 16 * 300);
            }
            Err(refusal) if refusal.reason == Reason::NotAccepted => met.open += 1,
            Err(refusal) => drop(own.insert(refusal.reason)),
        }
    }
    assert!(met.written > 1000 && met.open > 300 && own.len() > 6, "{met:?}, {own:?}");
    assert!(met.factors > 100 && met.several > 150 && met.days > 300 && met.fewer_days > 400, "{met:?}");
    assert!(met.whole > 100 && met.long > 300, "{met:?}");
}

/// A trimmed file with unused records put in is trimmed to what it was.
#[test]
fn what_is_put_in_goes() {
    let (mut written, mut longer) = (0, 0);
    for seed in 0..2000 {
        let (day, file) = trimming_file(seed);
        let Ok(trimmed) = trim(day, &file) else { continue };
        let again = padded(&trimmed, seed);
        // Copies of steps add bindings; no file here has so many that this matters.
        assert!(check(day, &again).verdict.is_accepted(), "seed {seed}");
        assert_eq!(trim(day, &again).as_ref(), Ok(&trimmed), "seed {seed}");
        written += 1;
        longer += usize::from(again.len() > 2 * trimmed.len());
    }
    assert!(written > 700 && longer > 300, "{written} and {longer}");
}

/// What damage leaves is answered as the check says.
#[test]
fn damaged_files_are_trimmed_or_refused() {
    let mut counts = [0; 3];
    for seed in 0..2000 {
        let example = damaged_trim(seed);
        match (check(example.day, &example.file).verdict, trim(example.day, &example.file)) {
            (Verdict::Accepted(_), Ok(_)) => counts[0] += 1,
            (Verdict::Open, Err(refusal)) => {
                assert_eq!((refusal.reason.number(), refusal.file, refusal.record), (23, 1, 0));
                counts[1] += 1;
            }
            (Verdict::Refused { reason, record }, Err(refusal)) => {
                assert_eq!((refusal.reason, refusal.file, refusal.record), (reason, 1, record));
                counts[2] += 1;
            }
            (verdict, trimmed) => panic!("seed {seed}: {verdict} and {trimmed:?}"),
        }
    }
    assert!(counts.iter().all(|&count| count > 25), "{counts:?}");
}

#[test]
fn stored_trims_are_up_to_date() {
    let advice = "write them anew with `cargo run --release --bin vectors`";
    let text = fs::read_to_string(results_path(GROUP)).expect("the stored trims");
    let ours = expected(&files());
    let differs = text.lines().zip(ours.lines()).find(|(stored, ours)| stored != ours);
    assert_eq!(differs, None, "{advice}");
    assert_eq!(text.len(), ours.len(), "{advice}");
    assert!(text.len() < 200_000, "{} bytes", text.len());
}

#[test]
fn every_answer_has_vectors() {
    let text = expected(&files());
    let answers: Vec<&str> = text.lines().filter_map(|line| line.strip_prefix("answer ")).collect();
    let count = |start: &str| answers.iter().filter(|answer| answer.starts_with(start)).count();
    assert_eq!(answers.len(), files().len());
    for start in ["2 1 1 0", "2 3 1 ", "2 4 1 ", "2 5 1 ", "2 7 1 ", "2 8 1 ", "2 14 1 ", "2 16 1 "] {
        assert!(count(start) >= 1, "{} answers begin with {start}", count(start));
    }
    assert!(count("2 23 1 0") >= 8 && count("0 ") > 70 && count("0 65536 0 0") == 1, "{}", count("0 "));
    let names: HashSet<String> = files().into_iter().map(|file| file.name).collect();
    assert_eq!(names.len(), answers.len(), "every file has a name of its own");
}

/// A file whose name begins with a number is refused with it; all others are trimmed.
#[test]
fn names_say_what_is_given() {
    for example in examples() {
        let number = example.name.split('-').next().and_then(|word| word.parse::<u16>().ok());
        let refusal = trim(example.day, &example.file).err();
        assert_eq!(refusal.map(|refusal| refusal.reason.number()), number, "{}", example.name);
        // Where the name says that all is kept, it is; unused rules around it alter nothing.
        if example.name.starts_with("all-of-") {
            assert_eq!(trim(example.day, &example.file), Ok(example.file), "{}", example.name);
        } else if let Some(rest) = example.name.strip_prefix("unused-rules-before-") {
            let whole = format!("all-of-{rest}");
            let all = examples().into_iter().find(|example| example.name == whole).expect("it is there");
            assert_eq!(trim(example.day, &example.file), Ok(all.file), "{}", example.name);
        }
    }
}
