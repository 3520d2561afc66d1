//! The check and the readouts against the slow reference, cell for cell.

mod reference;
mod rewriting;

use reference::Reference;
use rewriting::rewritten;
use yestrwyn_vectors::examples::{cases, days, deep, edges, published, refusals, Example};
use yestrwyn_vectors::outcome::outcome_on;
use yestrwyn_vectors::random::random_file_of;
use yestrwyn_vectors::repeating::rows_at_random;
use yestrwyn_vectors::{
    clashing_file, clashing_several_file, damage, dated_file, random_file, repeating_file,
};
use yestrwyn_vectors::{several_file, several_file_of};

/// Answer, all table cells, works and both readouts agree on day 0.
fn agree(name: &str, file: &[u8]) {
    agree_on(0, name, file);
}

/// The same on a day.
fn agree_on(day: u16, name: &str, file: &[u8]) {
    let ours = outcome_on(day, file);
    let theirs = Reference::check(file);
    assert_eq!(ours.answer.numbers(), theirs.answer_on(day), "answer of {name} on day {day}");
    for (cells, used) in ours.tables().into_iter().zip(theirs.tables()) {
        assert_eq!(cells[..used.len()], used, "table of {name}");
        assert!(cells[used.len()..].iter().all(|&cell| cell == 0), "rest of a table of {name}");
    }
    let works: Vec<(u16, u32)> = ours.works.iter().map(|step| (step.record, step.work)).collect();
    assert_eq!(works, theirs.works, "works of {name}");
    let readout = theirs.readout_on(day);
    assert_eq!(String::from_utf8_lossy(&ours.readout), readout, "readout of {name}");
    let canonical = rewritten(&readout);
    assert_eq!(String::from_utf8_lossy(&ours.canonical), canonical, "second readout of {name}");
}

fn agree_all(examples: Vec<Example>) {
    for example in examples {
        agree(&example.name, &example.file);
    }
}

#[test]
fn case_sheet() {
    agree_all(cases::examples());
}

#[test]
fn published_examples() {
    agree_all(published());
}

#[test]
fn refused_files() {
    agree_all(refusals::examples());
}

#[test]
fn edges_of_limits_and_deep_files() {
    // The reference recurses as deep as terms nest, and takes minutes for a derivation of 4,000 steps.
    let fast = |example: &Example| !example.name.starts_with("deep-derivation");
    let compare = move || {
        agree_all(edges::examples());
        agree_all(deep::examples().into_iter().filter(fast).collect());
        agree("a shorter count", &deep::derivation(300));
        agree("a shorter chain of two derived parents", &deep::two_derived(300));
    };
    let walk = std::thread::Builder::new().stack_size(1 << 29).spawn(compare).expect("a thread");
    walk.join().expect("agreement");
}

#[test]
fn random_files() {
    for seed in 0..8000 {
        agree(&format!("random {seed}"), &random_file(seed));
    }
}

#[test]
fn damaged_random_files() {
    for seed in 0..8000 {
        agree(&format!("damaged {seed}"), &damage(&random_file(seed), seed));
    }
}

#[test]
fn longer_random_files() {
    for seed in 0..200 {
        agree(&format!("long {seed}"), &random_file_of(seed, 150));
    }
}

#[test]
fn clashing_files() {
    for seed in 0..1500 {
        agree(&format!("clashing {seed}"), &clashing_file(seed));
        agree(&format!("clashing {seed}, damaged"), &damage(&clashing_file(seed), seed));
    }
}

#[test]
fn files_with_repeated_rows() {
    for seed in 0..2000 {
        agree(&format!("repeating {seed}"), &repeating_file(seed));
        agree(&format!("repeating {seed}, damaged"), &damage(&repeating_file(seed), seed));
    }
}

#[test]
fn files_with_days() {
    for example in days::examples() {
        agree_on(example.day, &example.name, &example.file);
    }
    for seed in 0..3000 {
        let (day, file) = dated_file(seed);
        for day in [day.wrapping_sub(1), day, day.wrapping_add(1)] {
            agree_on(day, &format!("dated {seed}"), &file);
        }
        agree_on(day, &format!("dated {seed}, damaged"), &damage(&file, seed));
        agree_on(day, &format!("dated {seed}, rows repeated"), &rows_at_random(&file, seed).file);
    }
}

#[test]
fn files_with_steps_on_several_literals() {
    for seed in 0..3000 {
        let file = several_file(seed);
        agree(&format!("several {seed}"), &file);
        agree(&format!("several {seed}, damaged"), &damage(&file, seed));
        agree(&format!("several {seed}, rows repeated"), &rows_at_random(&file, seed).file);
    }
    for seed in 0..1500 {
        agree(&format!("clashing several {seed}"), &clashing_several_file(seed));
    }
    for seed in 0..60 {
        agree(&format!("long several {seed}"), &several_file_of(seed, 150));
    }
}
