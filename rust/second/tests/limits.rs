//! Every limit at its edge, every reason with its record, and files as deep as the limits allow.

use yestrwyn_vectors::examples::{deep, edges, refusals, Example};
use yestrwyn_vectors::outcome::{outcome, Outcome};

/// The outcome of an example by its name.
fn named(all: &[Example], name: &str) -> Outcome {
    let example = all.iter().find(|example| example.name == name).unwrap_or_else(|| panic!("no {name}"));
    outcome(&example.file)
}

/// Verdict as a word: the first line of the readout.
fn verdict(outcome: &Outcome) -> String {
    String::from_utf8_lossy(&outcome.readout).lines().next().unwrap_or("").to_string()
}

fn last_work(outcome: &Outcome) -> Option<u32> {
    outcome.works.last().map(|step| step.work)
}

fn reason(outcome: &Outcome) -> u16 {
    match outcome.answer.numbers() {
        [2, reason, ..] => reason,
        _ => 0,
    }
}

#[test]
fn ranges() {
    let all = edges::examples();
    for (name, expected) in [
        ("arity-6", 0),
        ("arity-7", 4),
        ("arity-255", 4),
        ("variable-63", 0),
        ("variable-64", 4),
        ("variable-256", 4),
        ("arguments-6", 0),
        ("arguments-7", 4),
        ("literals-7", 0),
        ("literals-8", 4),
        ("literals-255", 4),
        ("highest-row", 0),
        ("past-highest-row", 5),
    ] {
        assert_eq!(reason(&named(&all, name)), expected, "{name}");
    }
}

#[test]
fn lengths() {
    let all = edges::examples();
    for (name, expected) in
        [("length-1", 1), ("length-15", 1), ("length-16", 3), ("length-17", 1), ("length-65552", 1)]
    {
        assert_eq!(reason(&named(&all, name)), expected, "{name}");
    }
    let full = named(&all, "length-65536");
    assert_eq!(full.answer.numbers(), [1, 1001, 0, 1000, 1000, 2096, 0]);
    assert_eq!(full.used()[2][5 * 2095], 4095, "the last record is the last clause");
}

#[test]
fn work() {
    let all = edges::examples();
    for (name, expected) in [
        ("work-16384-pairs", 0),
        ("work-16385-pairs", 12),
        ("work-16384-clash-by-a-binding-resolve", 10),
        ("work-16385-clash-by-a-binding-resolve", 12),
        ("work-16384-occurrence-left", 0),
        ("work-16385-occurrence-left", 12),
        ("work-16384-occurrence-right", 0),
        ("work-16385-occurrence-right", 12),
        ("work-16384-occurs", 11),
        ("work-16385-occurs", 12),
        ("work-16384-factor", 0),
        ("work-16385-factor", 12),
    ] {
        let outcome = named(&all, name);
        assert_eq!((reason(&outcome), last_work(&outcome)), (expected, Some(16_384)), "{name}");
    }
    // As written these clash at the third pair, however much work unification would do before.
    for name in ["work-16384-clash", "work-16385-clash"] {
        let outcome = named(&all, name);
        assert_eq!((reason(&outcome), last_work(&outcome)), (10, Some(0)), "{name}");
    }
}

#[test]
fn pairs_of_outlines() {
    let all = edges::examples();
    for (name, at_4096, at_4097, work) in [
        ("occurs-resolve", 10, 11, 6),
        ("occurs-factor", 10, 11, 6),
        ("occurs-deep-resolve", 10, 11, 6),
        ("occurs-deep-factor", 10, 11, 6),
        ("work-resolve", 10, 12, 16_384),
        ("work-factor", 10, 12, 16_384),
        ("bindings-resolve", 10, 13, 3),
        ("bindings-factor", 10, 13, 3),
        ("clash-resolve", 10, 10, 4098),
        ("clash-factor", 10, 10, 4098),
        ("stands-resolve", 0, 0, 4098),
        ("stands-factor", 0, 0, 4098),
    ] {
        let [found, hidden] = [4096, 4097].map(|pairs| named(&all, &format!("outline-{pairs}-pairs-{name}")));
        assert_eq!(reason(&found), at_4096, "{name}");
        assert_eq!((reason(&hidden), last_work(&hidden)), (at_4097, Some(work)), "{name}");
        if at_4096 == 10 {
            assert_eq!(last_work(&found), Some(0), "{name}: the comparison is no work of the step");
        }
    }
}

#[test]
fn bindings() {
    let all = edges::examples();
    for (name, expected, held) in [
        ("bindings-8192", 0, 8192),
        ("bindings-8192-then-none-needed", 0, 8192),
        ("bindings-8193", 13, 8192),
        ("bindings-8191-then-one", 0, 8192),
        ("bindings-8191-then-two", 13, 8191),
        ("bindings-8192-then-clash-first", 10, 8192),
        ("bindings-8192-then-clash-after", 10, 8192),
        ("bindings-8192-then-occurs", 11, 8192),
    ] {
        let outcome = named(&all, name);
        assert_eq!((reason(&outcome), outcome.answer.bindings), (expected, held), "{name}");
        let used = 4 * usize::from(held);
        assert!(
            outcome.cells.bindings[used..].iter().all(|&cell| cell == 0),
            "{name} leaves bindings behind"
        );
    }
}

#[test]
fn sizes_of_results() {
    let all = edges::examples();
    for (name, expected, literals, index) in [
        ("result-128-literals", 0, 128, 26),
        ("result-129-literals", 9, 127, 25),
        ("result-129-literals-and-clash", 9, 127, 25),
        ("result-128-literals-and-clash", 10, 127, 25),
        ("result-129-literals-and-signs", 8, 127, 25),
        ("result-129-literals-and-missing", 5, 127, 25),
        ("result-index-4096", 0, 2, 4096),
        ("result-index-4097", 9, 2, 4096),
        ("result-index-8192", 9, 2, 4096),
        ("factor-at-index-4096", 0, 2, 4096),
    ] {
        let outcome = named(&all, name);
        let last = outcome.used()[2].chunks(5).last().expect("a clause");
        assert_eq!((reason(&outcome), last[1], last[2]), (expected, literals, index), "{name}");
    }
}

#[test]
fn occurrences_in_the_readout() {
    let all = edges::examples();
    let line = |name: &str, clause: usize| {
        let outcome = named(&all, name);
        String::from_utf8_lossy(&outcome.readout).lines().nth(clause + 1).unwrap_or("").to_string()
    };
    assert!(!line("occurrences-64", 0).contains('~'));
    assert!(!line("occurrences-64", 2).contains('~'));
    assert_eq!(line("occurrences-65", 0), "0 1 -s0(s4) -~ +~ +s0(s4) +~");
    assert_eq!(line("occurrences-65", 2), "2 2 -s0(s4) -~ +~ +s0(s4) +~ -~");
    assert_eq!(line("occurrences-65", 3), "3 2 +~ -~ -s0(s4) -~ +~ +s0(s4)");
}

/// Each name begins with the reason, or with "stands". Where two reasons apply the lower is given.
#[test]
fn reasons_and_their_order() {
    for example in refusals::examples() {
        let name = &example.name;
        let outcome = outcome(&example.file);
        let [kind, what, record, symbols, rows, clauses, _] = outcome.answer.numbers();
        let (standing, records) = (symbols + rows + clauses, example.file.len() / 16);
        match name.split('-').next().unwrap_or("") {
            "stands" => assert!(kind != 2 && usize::from(standing) == records, "{name}"),
            first => {
                let expected: u16 = first.parse().unwrap_or_else(|_| panic!("no reason in {name}"));
                // The refused record is the last but one: a good one comes after it.
                assert_eq!((kind, what, record), (2, expected, standing), "{name}");
                assert_eq!(usize::from(record), records - 2, "{name}");
            }
        }
    }
}

/// Of each kind every byte that it does not use has a file.
#[test]
fn unused_bytes() {
    let all = refusals::examples();
    let places = |record: &str| -> Vec<usize> {
        let prefix = format!("4-{record}-byte-");
        let numbers = all.iter().filter_map(|example| example.name.strip_prefix(&prefix)?.parse().ok());
        // Byte 1 of a variable, a resolve and a factor has two files.
        let mut numbers: Vec<usize> = numbers.collect();
        numbers.sort();
        numbers.dedup();
        numbers
    };
    let from = |first: usize| (first..16).collect::<Vec<_>>();
    let and_byte_1 = |first: usize| [vec![1], from(first)].concat();
    assert_eq!(places("symbol"), from(2));
    assert_eq!(places("variable"), and_byte_1(4));
    assert_eq!(places("application-of-none"), from(4));
    assert_eq!(places("application-of-two"), from(8));
    assert_eq!(places("clause-of-none"), from(2));
    assert_eq!(places("clause-of-two"), from(6));
    assert_eq!(places("resolve"), and_byte_1(10));
    assert_eq!(places("factor"), and_byte_1(8));
    assert_eq!(places("several-of-one"), from(10));
    assert_eq!(places("several-of-two"), from(12));
    assert_eq!(places("several-of-three"), from(14));
}

#[test]
fn as_many_as_the_records_allow() {
    let all = edges::examples();
    let symbols = named(&all, "symbols-4096");
    assert_eq!(symbols.answer.numbers(), [0, 0, 0, 4096, 0, 0, 0]);
    assert_eq!(symbols.cells.symbols[4095], 4095);
    let rows = named(&all, "rows-4095");
    assert_eq!(rows.answer.numbers(), [0, 0, 0, 1, 4095, 0, 0]);
    assert_eq!(rows.cells.rows[4094], 4095);
    let clause = named(&all, "clause-on-the-last-of-4094-rows");
    assert_eq!(clause.answer.numbers(), [0, 0, 0, 1, 4094, 1, 0]);
    assert_eq!(clause.used()[2], [4095, 2, 1, 0, 0]);
    // Row 4,093 = 64 × 63 + 61 is s0 applied 63 times to variable 61: 64 occurrences, which are written.
    let atom = format!("{}v61.1{}", "s0(".repeat(63), ")".repeat(63));
    assert_eq!(String::from_utf8_lossy(&clause.readout), format!("open\n0 1 +{atom} -{atom}\n"));
    let empty = named(&all, "empty-clauses-4096");
    assert_eq!(empty.answer.numbers(), [1, 0, 0, 0, 0, 4096, 0]);
    assert_eq!(empty.used()[2][5 * 4095..], [4095, 0, 1, 0, 0]);
}

#[test]
fn deep_terms() {
    let all = deep::examples();
    for (name, expected, work) in [
        ("deep-14336-nested", "open", 14_339),
        ("deep-16384-nested", "refused 12 at 37", 16_384),
        ("deep-16382-nested", "accepted 46", 16_384),
        ("deep-16383-nested", "refused 12 at 69", 16_384),
        ("deep-occurrence-16381", "accepted 24", 16_384),
        ("deep-occurrence-16382", "refused 12 at 46", 16_384),
        ("deep-occurs-16379", "refused 11 at 44", 16_384),
        ("deep-occurs-16380", "refused 12 at 45", 16_384),
        // Compared 4,091 pairs deep before.
        ("deep-outline-first", "open", 8185),
        ("deep-outline-clash", "refused 10 at 4095", 0),
        ("deep-outline-wide", "refused 12 at 4095", 16_384),
    ] {
        let outcome = named(&all, name);
        assert_eq!((verdict(&outcome).as_str(), last_work(&outcome)), (expected, Some(work)), "{name}");
    }
}

#[test]
fn two_terms_of_14336_nested_applications_fit_in_37_records() {
    let file = deep::two_rules(7);
    assert_eq!(file.len() / 16, 37);
    let outcome = outcome(&file);
    assert_eq!(outcome.answer.numbers(), [0, 0, 0, 2, 10, 25, 23]);
    assert!(outcome.readout.ends_with(b"24 4096 -s0(v0.2049) +s0(v0.2049)\n"));
}

#[test]
fn deep_derivations() {
    let all = deep::examples();
    let count = named(&all, "deep-derivation-4000");
    assert_eq!(count.answer.numbers(), [0, 0, 0, 3, 6, 4002, 4000]);
    assert_eq!(last_work(&count), Some(4002));
    let right = named(&all, "deep-factors-right-parents");
    assert_eq!(right.answer.numbers(), [0, 0, 0, 3, 6, 503, 400]);
    let doubled = named(&all, "deep-twelve-doublings");
    assert_eq!(doubled.used()[2].chunks(5).last().map(|cells| cells[2]), Some(4096));
    assert_eq!(verdict(&named(&all, "deep-thirteen-doublings")), "refused 9 at 20");
}

#[test]
fn values_of_exponential_size() {
    let all = deep::examples();
    assert_eq!(verdict(&named(&all, "deep-exponential-refused")), "refused 12 at 11");
    // 2^610 leaves, of which the readout looks at 65 occurrences.
    let large = named(&all, "deep-exponential-value");
    assert_eq!(verdict(&large), "open");
    assert!(String::from_utf8_lossy(&large.readout).ends_with("60 61 +~ -s0(v0.61)\n"));
}
