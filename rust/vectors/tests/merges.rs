//! Pairs of files made to be merged: all answers are met often; and the stored vectors of merges are what the program writes.

use std::collections::HashSet;
use std::fs;

use yestrwyn_second::{check, merge};
use yestrwyn_types::limits::FILE_BYTES;
use yestrwyn_types::record::kind;
use yestrwyn_types::Verdict;
use yestrwyn_vectors::merges::{expected, pairs, GROUP};
use yestrwyn_vectors::merging_files;
use yestrwyn_vectors::stored::results_path;

/// How many records of a kind a file has.
fn of_kind(file: &[u8], wanted: u8) -> usize {
    file.iter().step_by(16).filter(|&&byte| byte == wanted).count()
}

/// What the random pairs give.
#[derive(Default, Debug)]
struct Met {
    /// Written with the first list of symbols shorter, as long as the second's, and longer.
    written: [usize; 3],
    /// Refused because a file is, and with 17, 18 and 19; in the first file and in the second.
    refused: [usize; 4],
    files: [usize; 3],
    /// Written with windows in either file, with rows that repeat, without symbols in the second, and as long as can be.
    windows: usize,
    repeated: usize,
    without_symbols: usize,
    full: usize,
}

/// Adds what a pair gives.
fn count(met: &mut Met, [first, second]: &[Vec<u8>; 2]) {
    let lists = [first, second].map(|file| of_kind(file, kind::SYMBOL));
    match merge(first, second) {
        Ok(merged) => {
            let shorter = lists[0].cmp(&lists[1]) as i8 + 1;
            met.written[shorter as usize] += 1;
            met.windows += usize::from([first, second].iter().all(|file| of_kind(file, kind::WINDOW) > 0));
            met.without_symbols += usize::from(lists[1] == 0 && !second.is_empty());
            met.full += usize::from(merged.len() == FILE_BYTES);
            let rows =
                merged.chunks(16).filter(|record| matches!(record[0], kind::VARIABLE | kind::APPLICATION));
            met.repeated += usize::from(rows.clone().collect::<HashSet<_>>().len() < rows.count());
        }
        Err(refusal) => {
            met.refused[usize::from(refusal.reason.number().max(16) - 16)] += 1;
            met.files[usize::from(refusal.file)] += 1;
        }
    }
}

#[test]
fn all_answers_are_met() {
    let mut met = Met::default();
    for seed in 0..3000 {
        let files = merging_files(seed);
        assert_eq!(files, merging_files(seed), "seed {seed}");
        count(&mut met, &files);
        for file in &files {
            // Only a record that is meant to be refused is, and it is the last; a file that was full may be too long with it.
            if let Verdict::Refused { record, .. } = check(0, file).verdict {
                let last = usize::from(record) + 1 == file.len() / 16;
                assert!(last || file.len() > FILE_BYTES, "seed {seed}, record {record}");
            }
        }
    }
    assert!(met.written.iter().all(|&written| written > 500), "{met:?}");
    assert!(met.refused.iter().all(|&refused| refused > 60), "{met:?}");
    assert!(met.files.iter().all(|&refused| refused > 60), "{met:?}");
    assert!(
        met.windows > 500 && met.repeated > 1000 && met.without_symbols > 100 && met.full > 20,
        "{met:?}"
    );
}

#[test]
fn stored_merges_are_up_to_date() {
    let advice = "write them anew with `cargo run --release --bin vectors`";
    let text = fs::read_to_string(results_path(GROUP)).expect("the stored merges");
    let ours = expected(&pairs());
    let differs = text.lines().zip(ours.lines()).find(|(stored, ours)| stored != ours);
    assert_eq!(differs, None, "{advice}");
    assert_eq!(text.len(), ours.len(), "{advice}");
    assert!(text.len() < 200_000, "{} bytes", text.len());
}

#[test]
fn every_reason_of_a_merge_has_vectors() {
    let text = expected(&pairs());
    let answers: Vec<&str> = text.lines().filter_map(|line| line.strip_prefix("answer ")).collect();
    let count = |start: &str| answers.iter().filter(|answer| answer.starts_with(start)).count();
    assert_eq!(answers.len(), pairs().len());
    for reason in ["2 1 ", "2 3 ", "2 4 ", "2 5 ", "2 16 ", "2 17 1 ", "2 17 2 ", "2 18 2 ", "2 19 0 0"] {
        assert!(count(reason) >= 3, "{} answers begin with {reason}", count(reason));
    }
    assert!(count("0 ") > 50 && count("0 65536 0 0") > 5, "{} are written", count("0 "));
    let names: HashSet<String> = pairs().into_iter().map(|pair| pair.name).collect();
    assert_eq!(names.len(), answers.len(), "every pair has a name of its own");
}
