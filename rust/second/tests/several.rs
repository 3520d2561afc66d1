//! Steps on several right literals: against kind 5, against the factors that they replace, and at their limits.

mod reference;
mod rewriting;

use std::collections::BTreeMap;

use reference::Reference;
use rewriting::rewritten;
use yestrwyn_types::limits::RECORD_BYTES;
use yestrwyn_types::record::{kind, Record};
use yestrwyn_vectors::examples::several::by_kind_7;
use yestrwyn_vectors::examples::{cases, deep, edges, published, refusals, several, Example};
use yestrwyn_vectors::outcome::{outcome, Outcome};
use yestrwyn_vectors::{clashing_file, clashing_several_file, damage, random_file, random_file_of};
use yestrwyn_vectors::{several_file, several_file_of};

/// The outcome of a file by its name.
fn named(all: &[Example], name: &str) -> Outcome {
    outcome(&all.iter().find(|example| example.name == name).expect("a file of that name").file)
}

fn text(outcome: &Outcome) -> &str {
    std::str::from_utf8(&outcome.readout).expect("a readout is ASCII")
}

fn works(outcome: &Outcome) -> Vec<u32> {
    outcome.works.iter().map(|step| step.work).collect()
}

/// The reason of a refusal, or 0.
fn reason(outcome: &Outcome) -> u16 {
    match outcome.answer.numbers() {
        [2, reason, ..] => reason,
        _ => 0,
    }
}

#[test]
fn two_right_literals_by_hand() {
    let two = named(&several::cases(), "several-2-positive");
    // x and y are bound to v0 and f(v1); then v0, which x ends on, to v1, and v1 to v2.
    assert_eq!(works(&two), [12]);
    assert_eq!(two.answer.bindings, 4);
    let lines: Vec<&str> = text(&two).lines().collect();
    assert_eq!(lines[2], "1 1 -s0(v0.1,s3(v1.1)) +s2(v0.1) -s0(v1.1,s3(v2.1)) +s2(v1.1)");
    assert_eq!(lines[3], "2 2 +s1(v2.2) -s2(s3(v2.2)) +s2(v2.2) +s2(v2.2)");
}

#[test]
fn the_rule_rif_of_the_lecture_notes() {
    for name in ["rules-RIF", "rules-RIF-negative"] {
        let rif = named(&published(), name);
        assert_eq!(reason(&rif), 10, "{name}: the second step has no unifier");
        // C is c(x,y), D is d(x,y,z); x becomes g(y,y) and both the left y and z become f(y).
        let derived = "3 2 +s2(s4(v1.2,v1.2),s3(v1.2)) +s1(s4(v1.2,v1.2),v1.2,s3(v1.2))\n";
        assert!(text(&rif).ends_with(derived), "{name}: {}", text(&rif));
    }
}

#[test]
fn two_right_literals_do_without_a_factor() {
    assert_eq!(
        text(&named(&several::cases(), "several-to-the-empty-clause")).lines().next(),
        Some("accepted 3")
    );
}

/// With one right literal of kind 7 for each step of kind 5 everything is the same: answer, cells, works, readout.
fn same_by_kind_7(name: &str, file: &[u8]) -> bool {
    let other = by_kind_7(file);
    assert_eq!(outcome(&other), outcome(file), "{name}");
    other != file
}

#[test]
fn one_right_literal_is_kind_5() {
    let named = [cases::examples(), published(), refusals::examples(), edges::examples()].concat();
    let deep = deep::examples().into_iter().filter(|example| !example.name.starts_with("deep-derivation"));
    let mut differing = 0;
    for Example { name, file, .. } in named.into_iter().chain(deep) {
        differing += usize::from(same_by_kind_7(&name, &file));
    }
    for seed in 0..3000 {
        let file = match seed % 4 {
            0 => clashing_file(seed),
            1 => damage(&random_file(seed), seed),
            2 => random_file_of(seed, 100),
            _ => random_file(seed),
        };
        differing += usize::from(same_by_kind_7(&format!("seed {seed}"), &file));
    }
    assert!(differing > 2500, "{differing} files have steps of kind 5");
}

/// The records that make the same clause by factors of the right parent, which keep its first named literal, and a
/// resolve on that; `next` is the number of the first clause that they make.
fn in_turn(step: &Record, next: u16) -> Vec<Record> {
    let [left, b, mut right, first, ..] = step.fields;
    let mut records = Vec::new();
    let others = &step.fields[4..3 + usize::from(step.count)];
    for (&number, gone) in others.iter().zip(0..) {
        records.push(Record::new(kind::FACTOR, 0, &[right, first, number - gone]));
        right = next + gone;
    }
    records.push(Record::new(kind::RESOLVE, 0, &[left, b, right, first]));
    records
}

/// Literals of a line of the readout, with variables numbered from 0 as they appear; none where some are not written.
fn renamed(line: &str) -> Option<String> {
    let literals = line.splitn(3, ' ').nth(2).unwrap_or("");
    (!literals.contains('~')).then(|| rewritten(literals))
}

/// Each step of a file that names two or more right literals, against the steps that it replaces; says how many were
/// compared.
fn steps_replace_factors(name: &str, file: &[u8]) -> usize {
    let state = Reference::check(file);
    let mut compared = 0;
    for clause in &state.clauses {
        let end = RECORD_BYTES * usize::from(clause.record);
        let step = Record::from_bytes(file[end..end + RECORD_BYTES].try_into().expect("a record"));
        if step.kind != kind::RESOLVE_SEVERAL || step.count < 2 {
            continue;
        }
        let standing = outcome(&file[..end]).answer.clauses;
        let with = |records: &[Record]| {
            let more = records.iter().flat_map(Record::to_bytes);
            outcome(&file[..end].iter().copied().chain(more).collect::<Vec<u8>>())
        };
        let (at_once, in_turn) = (with(&[step]), with(&in_turn(&step, standing)));
        assert_eq!(reason(&in_turn), 0, "record {} of {name}", clause.record);
        let last = |outcome: &Outcome| renamed(text(outcome).lines().last().unwrap_or(""));
        assert_eq!(last(&at_once), last(&in_turn), "record {} of {name}", clause.record);
        compared += usize::from(last(&at_once).is_some());
    }
    compared
}

#[test]
fn a_step_is_the_factors_and_the_resolve_that_it_replaces() {
    let mut compared = 0;
    for seed in 0..1500 {
        compared += steps_replace_factors(&format!("several {seed}"), &several_file(seed));
    }
    assert!(compared > 3000, "{compared} steps compared");
    for example in several::cases() {
        steps_replace_factors(&example.name, &example.file);
    }
}

#[test]
fn named_steps_are_the_named_factors() {
    let all = several::cases();
    for count in 1..=4 {
        for sign in ["positive", "negative"] {
            let name = format!("several-{count}-{sign}");
            let last = |name: &str| renamed(text(&named(&all, name)).lines().last().unwrap_or(""));
            assert_eq!(last(&name), last(&format!("{name}-in-turn")), "{name}");
            assert!(last(&name).is_some(), "{name}");
        }
    }
}

#[test]
fn work_and_bindings_of_all_literals_together() {
    let all = edges::examples();
    for (name, expected) in [
        ("16384-in-the-second", 0),
        ("16385-in-the-second", 12),
        ("16385-as-the-third-begins", 12),
        ("16384-in-the-third", 0),
        ("16385-in-the-third", 12),
        ("16384-in-the-fourth", 0),
        ("16385-in-the-fourth", 12),
    ] {
        let outcome = named(&all, &format!("several-work-{name}"));
        assert_eq!((reason(&outcome), works(&outcome)), (expected, vec![16_384]), "{name}");
    }
    for (name, expected, held) in [
        ("8192-in-the-second", 0, 8192),
        ("8193-in-the-second", 13, 8191),
        ("8192-in-the-third", 0, 8192),
        ("8193-in-the-third", 13, 8190),
        ("8192-in-the-fourth", 0, 8192),
        ("8193-in-the-fourth", 13, 8189),
        ("8192-then-none-needed", 0, 8192),
    ] {
        let outcome = named(&all, &format!("several-bindings-{name}"));
        assert_eq!((reason(&outcome), outcome.answer.bindings), (expected, held), "{name}");
        let rest = &outcome.cells.bindings[4 * usize::from(held)..];
        assert!(rest.iter().all(|&cell| cell == 0), "{name} leaves bindings behind");
    }
}

#[test]
fn sizes_and_outlines() {
    let all = edges::examples();
    for count in 1..=4 {
        let [stands, over] =
            [128, 129].map(|literals| named(&all, &format!("several-result-{literals}-literals-of-{count}")));
        let last = stands.used()[2].chunks(5).last().expect("a clause");
        assert_eq!((reason(&stands), last[1], last[2], reason(&over)), (0, 128, 26, 9), "{count}");
    }
    let [stands, over] = [4096, 4097].map(|index| named(&all, &format!("several-result-index-{index}")));
    let last = stands.used()[2].chunks(5).last().expect("a clause");
    assert_eq!((reason(&stands), last[1], last[2], reason(&over)), (0, 2, 4096, 9));
    for place in ["second", "third"] {
        let [found, hidden] =
            [4096, 4097].map(|pairs| named(&all, &format!("several-outline-{pairs}-pairs-of-the-{place}")));
        assert_eq!((reason(&found), works(&found)), (10, vec![0]), "{place}");
        assert_eq!((reason(&hidden), works(&hidden)), (11, vec![6]), "{place}");
    }
}

#[test]
fn random_files_have_steps_and_refusals_of_every_kind() {
    let (mut standing, mut reasons) = ([0; 5], BTreeMap::new());
    for seed in 0..3000 {
        let file = match seed % 3 {
            0 => several_file(seed),
            1 => damage(&several_file(seed), seed),
            _ => clashing_several_file(seed),
        };
        let state = Reference::check(&file);
        for clause in &state.clauses {
            let at = RECORD_BYTES * usize::from(clause.record);
            standing[usize::from(file[at + 1]).min(4)] += usize::from(file[at] == kind::RESOLVE_SEVERAL);
        }
        let Some((reason, record)) = state.refusal else { continue };
        let refused = file.get(RECORD_BYTES * usize::from(record)) == Some(&kind::RESOLVE_SEVERAL);
        *reasons.entry(reason).or_insert(0) += usize::from(refused);
    }
    assert!(standing[1..].iter().all(|&steps| steps > 300), "{standing:?}");
    for reason in [4, 5, 8, 10, 11, 12, 13, 14] {
        assert!(reasons.get(&reason).is_some_and(|&count| count >= 20), "{reason} in {reasons:?}");
    }
}

#[test]
fn long_files_end_in_no_refusal_of_their_own() {
    for seed in 0..20 {
        let outcome = outcome(&several_file_of(seed, 300));
        assert!(outcome.answer.clauses > 100, "{seed}");
    }
}
