//! Any bytes at all: an answer, no panic, and nothing written outside what the answer allows.

use yestrwyn_second::{canonical_readout_into, check_into, readout_into};
use yestrwyn_types::record::{input_literals, kind, part, Record};
use yestrwyn_types::{Answer, Reason, Tables, Verdict, LENGTHS};
use yestrwyn_vectors::examples::{cases, days, edges, published, refusals};
use yestrwyn_vectors::random::SplitMix64;
use yestrwyn_vectors::sketch::Sketch;
use yestrwyn_vectors::{damage, dated_file, random_file, several_file};

const MARK: u16 = 0xabcd;

/// Tables filled with a mark, some cells longer than they need to be.
fn marked(extra: usize) -> [Vec<u16>; 4] {
    LENGTHS.map(|length| vec![MARK; length + extra])
}

/// Checks a file on day 0 and tests what must hold of every answer.
fn holds(file: &[u8]) {
    holds_on(0, file);
}

/// The same on a day.
fn holds_on(day: u16, file: &[u8]) {
    let [mut symbols, mut rows, mut clauses, mut bindings] = marked(3);
    let mut lent =
        Tables { symbols: &mut symbols, rows: &mut rows, clauses: &mut clauses, bindings: &mut bindings };
    let answer = check_into(day, file, &mut lent);
    let tables = [symbols, rows, clauses, bindings];
    let untouched = matches!(answer.verdict, Verdict::Refused { reason: Reason::Length | Reason::Table, .. });
    let counts = [answer.symbols, answer.rows, answer.clauses * 5, answer.bindings * 4];
    for ((table, length), used) in tables.iter().zip(LENGTHS).zip(counts) {
        assert!(table[length..].iter().all(|&cell| cell == MARK), "cells past the named part");
        let zero = &table[usize::from(used)..length];
        assert!(zero.iter().all(|&cell| cell == if untouched { MARK } else { 0 }), "cells not used");
    }
    verdict_agrees(file, &answer, &tables[2]);
    for readout in READOUTS {
        readout_agrees(readout, day, file, &tables, untouched);
    }
}

/// The verdict fits the clauses and the other counts. Windows are in no table, and without any the first empty clause is
/// accepted.
fn verdict_agrees(file: &[u8], answer: &Answer, clauses: &[u16]) {
    let windows = |records: usize| {
        let kinds = file.iter().step_by(16).take(records);
        kinds.filter(|&&byte| byte == kind::WINDOW).count()
    };
    let is_empty = |clause: &u16| clauses[5 * usize::from(*clause) + 1] == 0;
    let first = (0..answer.clauses).find(is_empty);
    match answer.verdict {
        Verdict::Accepted(clause) => assert!(is_empty(&clause) && first <= Some(clause)),
        Verdict::Open => assert!(first.is_none() || windows(usize::MAX) > 0),
        Verdict::Refused { record, .. } => {
            let counted = usize::from(answer.symbols + answer.rows + answer.clauses);
            let before = counted + windows(usize::from(record));
            assert_eq!(usize::from(record), before, "every record before the refused one stands");
            return;
        }
    }
    if windows(usize::MAX) == 0 {
        assert_eq!(answer.verdict, first.map_or(Verdict::Open, Verdict::Accepted));
    }
}

/// A readout, which leaves the tables as the check does.
type Readout = fn(u16, &[u8], &mut Tables<'_>) -> Vec<u8>;

/// Both of them.
const READOUTS: [Readout; 2] = [readout_into, canonical_readout_into];

/// A readout leaves the tables as the check does and has a line for each clause.
fn readout_agrees(readout: Readout, day: u16, file: &[u8], tables: &[Vec<u16>; 4], untouched: bool) {
    let [mut symbols, mut rows, mut clauses, mut bindings] = marked(3);
    let mut lent =
        Tables { symbols: &mut symbols, rows: &mut rows, clauses: &mut clauses, bindings: &mut bindings };
    let text = readout(day, file, &mut lent);
    assert_eq!([&symbols, &rows, &clauses, &bindings], tables.each_ref());
    assert!(text.ends_with(b"\n") && text.is_ascii());
    let lines = text.iter().filter(|&&byte| byte == b'\n').count();
    let stand = if untouched { 0 } else { clauses[..20_480].chunks(5).filter(|cells| cells[2] != 0).count() };
    assert_eq!(lines, 1 + stand);
}

#[test]
fn random_bytes() {
    let mut random = SplitMix64::new(1);
    for _ in 0..500 {
        let length = random.below(400);
        let bytes: Vec<u8> = (0..length).map(|_| random.below(256) as u8).collect();
        holds(&bytes);
        let small: Vec<u8> = (0..length / 16 * 16).map(|_| random.below(4) as u8).collect();
        holds(&small);
    }
}

#[test]
fn random_records() {
    let mut random = SplitMix64::new(2);
    for _ in 0..500 {
        let mut file = Sketch::new();
        for _ in 0..random.between(1, 40) {
            let used = random.below(8);
            let mut fields = [0; 7];
            fields[..used].fill_with(|| random.below(5) as u16);
            file.raw(Record { kind: random.between(1, 8) as u8, count: random.below(3) as u8, fields });
        }
        holds(&file.finish());
    }
}

#[test]
fn damaged_files() {
    let mut examples = cases::examples();
    examples.extend(published());
    examples.extend(refusals::examples());
    for (example, seed) in examples.iter().zip(0u64..) {
        for round in 0..6 {
            holds(&damage(&example.file, 1000 * seed + round));
        }
    }
    for seed in 0..600 {
        holds(&damage(&damage(&random_file(seed), seed), seed + 1));
        holds(&damage(&damage(&several_file(seed), seed), seed + 1));
    }
}

#[test]
fn files_with_days() {
    for example in days::examples() {
        holds_on(example.day, &example.file);
    }
    for seed in 0..600 {
        let (day, file) = dated_file(seed);
        holds_on(day, &file);
        holds_on(day, &damage(&file, seed));
        holds_on(day.wrapping_add(1), &damage(&damage(&file, seed), seed + 1));
    }
}

#[test]
fn edges_damaged() {
    for (example, seed) in edges::examples().iter().zip(0u64..) {
        holds(&example.file);
        holds(&damage(&example.file, seed));
    }
}

#[test]
fn short_tables_give_2_and_stay() {
    let file = cases::case_a();
    for short in 0..4 {
        for length in [0, 1, LENGTHS[short] - 1] {
            let mut tables = marked(0);
            tables[short].truncate(length);
            let [symbols, rows, clauses, bindings] = &mut tables;
            let mut lent = Tables { symbols, rows, clauses, bindings };
            let answer = check_into(0, &file, &mut lent);
            assert_eq!(answer.numbers(), [2, 2, 0, 0, 0, 0, 0]);
            for readout in READOUTS {
                assert_eq!(readout(0, &file, &mut lent), b"refused 2 at 0\n");
            }
            assert!(tables.iter().flatten().all(|&cell| cell == MARK));
        }
    }
}

#[test]
fn a_bad_length_comes_before_short_tables() {
    let none = || Tables { symbols: &mut [], rows: &mut [], clauses: &mut [], bindings: &mut [] };
    let answer = check_into(0, &[0; 15], &mut none());
    assert_eq!(answer.numbers(), [2, 1, 0, 0, 0, 0, 0]);
    let answer = check_into(0, &[0; 16], &mut none());
    assert_eq!(answer.numbers(), [2, 2, 0, 0, 0, 0, 0]);
}

#[test]
fn parts_of_a_file() {
    let file = cases::case_a();
    assert_eq!(part(&file, 0), &file[..16]);
    assert_eq!(part(&file, 15), &file[240..256]);
    assert_eq!(part(&file, 16), b"");
    assert_eq!(part(&file[..255], 15), b"");
    assert_eq!(part(&file, u16::MAX), b"");
    assert_eq!(input_literals(&file, 12), (2, [8, 11, 0, 0, 0, 0, 0]));
    assert_eq!(input_literals(&file, 0), (0, [0; 7]));
    assert_eq!(input_literals(&file, 16), (0, [0; 7]));
}

#[test]
fn equal_seeds_give_equal_files() {
    for seed in 0..1000 {
        assert_eq!(random_file(seed), random_file(seed));
        let records = random_file(seed).len() / 16;
        assert!((5..=60).contains(&records), "{records} records from seed {seed}");
        assert_eq!(damage(&random_file(seed), 7), damage(&random_file(seed), 7));
    }
}
