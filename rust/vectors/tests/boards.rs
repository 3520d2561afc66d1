//! Boards and the calls about them: all answers are met often; and the stored vectors of boards are what the program writes.

use std::collections::HashSet;
use std::fs;

use yestrwyn_second::board::Afresh;
use yestrwyn_second::check;
use yestrwyn_types::record::kind;
use yestrwyn_types::{BoardAnswer, Verdict};
use yestrwyn_vectors::boarding::{board_script, boarding_file};
use yestrwyn_vectors::boards::{expected, scripts, Lent, GROUP};
use yestrwyn_vectors::stored::results_path;

#[test]
fn files_made_for_boards_stand_and_have_several_empty_clauses() {
    let (mut accepted, mut several, mut kinds) = (0, 0, [0; 9]);
    for seed in 0..1000 {
        let (day, file) = boarding_file(seed);
        assert_eq!((day, file.clone()), boarding_file(seed), "seed {seed}");
        let verdict = check(day, &file).verdict;
        assert!(!matches!(verdict, Verdict::Refused { .. }), "seed {seed}: {verdict}");
        accepted += usize::from(verdict.is_accepted());
        file.chunks(16).for_each(|record| kinds[usize::from(record[0])] += 1);
        // Without the clauses of the first one there is often another.
        let Verdict::Accepted(clause) = verdict else { continue };
        let mut opened = Afresh::open(day, &file).expect("it stands");
        let first = opened.uses(clause)[0];
        several += usize::from(matches!(opened.withdraw(first), BoardAnswer::Answered(Some(_))));
    }
    assert!(accepted > 500 && several > 200, "{accepted} accepted, {several} with another empty clause");
    let steps = [kind::RESOLVE, kind::FACTOR, kind::RESOLVE_SEVERAL, kind::WINDOW];
    assert!(steps.iter().all(|&kind| kinds[usize::from(kind)] > 500), "{kinds:?}");
}

/// How many calls of the random scripts are answered with none and with a clause, and refused with 20 and 21; and how many alter
/// the answer.
#[derive(Default, Debug)]
struct Met {
    none: usize,
    clause: usize,
    refused: [usize; 2],
    other: usize,
    not_opened: usize,
}

#[test]
fn all_answers_are_met() {
    let mut met = Met::default();
    for seed in 0..1000 {
        let script = board_script(seed);
        let mut lent = Lent::new(&script);
        let Ok(mut last) = lent.open(&script).result() else {
            met.not_opened += 1;
            assert!(script.calls.is_empty());
            continue;
        };
        for &call in &script.calls {
            match lent.call(&script.file, call) {
                BoardAnswer::Answered(now) => {
                    met.none += usize::from(now.is_none());
                    met.clause += usize::from(now.is_some());
                    met.other += usize::from(now != last);
                    last = now;
                }
                BoardAnswer::Refused(refusal) => met.refused[usize::from(refusal.reason.number() - 20)] += 1,
            }
        }
    }
    assert!(met.none > 2000 && met.clause > 2000 && met.other > 800, "{met:?}");
    assert!(met.refused.iter().all(|&refused| refused > 1000) && met.not_opened > 20, "{met:?}");
}

#[test]
fn stored_boards_are_up_to_date() {
    let advice = "write them anew with `cargo run --release --bin vectors`";
    let text = fs::read_to_string(results_path(GROUP)).expect("the stored boards");
    let ours = expected(&scripts());
    let differs = text.lines().zip(ours.lines()).find(|(stored, ours)| stored != ours);
    assert_eq!(differs, None, "{advice}");
    assert_eq!(text.len(), ours.len(), "{advice}");
    assert!(text.len() < 200_000, "{} bytes", text.len());
}

#[test]
fn every_answer_of_a_board_has_vectors() {
    let scripts = scripts();
    let text = expected(&scripts);
    let count = |word: &str, kind: &str| {
        let lines = text.lines().filter_map(|line| line.strip_prefix(word));
        // The clause of a call comes before the answer.
        let answers =
            lines.map(|rest| if word == "open " { rest } else { rest.split_once(' ').unwrap_or(("", "")).1 });
        answers.filter(|answer| answer.starts_with(kind)).count()
    };
    for kind in ["0 0 0", "1 ", "2 1 0", "2 2 0", "2 5 ", "2 16 "] {
        assert!(count("open ", kind) >= 1, "opened with {kind}");
    }
    for word in ["withdraw ", "return "] {
        for kind in ["0 0 0", "1 ", "2 2 0", "2 20 0", "2 21 0"] {
            assert!(count(word, kind) >= 3, "{} of {word}are answered with {kind}", count(word, kind));
        }
    }
    let names: HashSet<&str> = scripts.iter().map(|script| script.name.as_str()).collect();
    assert_eq!(names.len(), scripts.len(), "every board has a name of its own");
}

/// A name that begins with a number is that of the last refusal; of a file that is refused, when it is opened.
#[test]
fn refusals_by_their_names() {
    let mut met = 0;
    for script in scripts() {
        let Some(reason) = script.name.split('-').next().and_then(|word| word.parse::<u16>().ok()) else {
            continue;
        };
        // 4096 input clauses and 4091 steps are no reasons.
        if reason > 21 {
            continue;
        }
        let mut lent = Lent::new(&script);
        let mut answers = vec![lent.open(&script)];
        answers.extend(script.calls.iter().map(|&call| lent.call(&script.file, call)));
        let refused = answers.iter().filter_map(|answer| answer.result().err());
        let reasons: HashSet<u16> = refused.map(|refusal| refusal.reason.number()).collect();
        assert!(reasons.contains(&reason), "{}: {reasons:?}", script.name);
        met += 1;
    }
    assert!(met > 12, "{met} scripts");
}
