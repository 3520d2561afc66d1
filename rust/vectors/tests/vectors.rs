//! The stored vectors are what the generator writes, and the packs can be read back.

use std::fs;
use std::path::PathBuf;

use yestrwyn_vectors::canonical;
use yestrwyn_vectors::examples::canonical::examples;
use yestrwyn_vectors::stored::{expected, groups, listing, listing_path, pack_path, results_path, unpack};

const ADVICE: &str = "write them anew with `cargo run --release --bin vectors`";

/// A stored file of the vectors.
fn stored(path: PathBuf) -> Vec<u8> {
    fs::read(&path).unwrap_or_else(|error| panic!("{}: {error}", path.display()))
}

/// A stored text is ours; otherwise the first line that differs is shown.
fn same_text(path: PathBuf, ours: &str) {
    let name = path.display().to_string();
    let text = String::from_utf8(stored(path)).expect("text");
    let differs = text.lines().zip(ours.lines()).find(|(stored, ours)| stored != ours);
    assert_eq!(differs, None, "{name}: {ADVICE}");
    assert_eq!(text.len(), ours.len(), "{name}: {ADVICE}");
}

#[test]
fn stored_vectors_are_up_to_date() {
    for group in groups() {
        let same = stored(pack_path(group.name)) == group.pack();
        assert!(same, "{}.bin differs: {ADVICE}", group.name);
        same_text(results_path(group.name), &expected(&group));
    }
}

#[test]
fn stored_listing_is_up_to_date() {
    same_text(listing_path(), &listing(&groups()));
}

#[test]
fn stored_second_readouts_are_up_to_date() {
    let text = canonical::expected(&examples());
    same_text(results_path(canonical::GROUP), &text);
    assert!(text.len() < 50_000, "{} bytes", text.len());
}

#[test]
fn packs_can_be_read_back() {
    for group in groups() {
        let bytes = stored(pack_path(group.name));
        let files = unpack(&bytes).expect("a whole pack");
        assert!(
            files.into_iter().eq(group.examples.iter().map(|example| group.entry(example))),
            "{}",
            group.name
        );
        assert_eq!(unpack(&bytes[..bytes.len() - 1]), None);
    }
}

/// The program `cases` has space for packs that are shorter than this.
const SPACE: usize = 655_360;

#[test]
fn the_vectors_are_small() {
    for group in groups() {
        let length = stored(pack_path(group.name)).len();
        assert!(length < SPACE, "{}.bin has {length} bytes", group.name);
    }
    let paths = |name| [pack_path(name), results_path(name)];
    let total: usize =
        groups().iter().flat_map(|group| paths(group.name)).map(|path| stored(path).len()).sum();
    assert!(total < 5_000_000, "{total} bytes");
}

#[test]
fn every_reason_that_a_file_can_give_has_vectors() {
    // Reason 2 depends on the caller's tables, not on the file; 6 is never given, and 15 and 17 to 23 by no check.
    let text: String = groups().iter().map(expected).collect();
    let answers: Vec<Vec<&str>> = text
        .lines()
        .filter(|line| line.starts_with("answer"))
        .map(|line| line.split(' ').collect())
        .collect();
    for reason in 1..=23 {
        let number = reason.to_string();
        let count = answers.iter().filter(|answer| answer[1] == "2" && answer[2] == number).count();
        let right =
            if [2, 6, 15, 17, 18, 19, 20, 21, 22, 23].contains(&reason) { count == 0 } else { count >= 3 };
        assert!(right, "{count} vectors are refused with {reason}");
    }
    assert!(answers.iter().filter(|answer| answer[1] == "1").count() > 200);
    assert!(answers.iter().filter(|answer| answer[1] == "0").count() > 200);
}
