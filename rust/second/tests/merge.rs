//! Two files merged into one: bytes by hand, what is refused and in which order, what is left alone; and on random pairs
//! that the merged file says what the two say, read as terms.

mod merging;

use merging::{Contents, Terms};
use yestrwyn_second::{check, check_into, merge, merge_into, readout};
use yestrwyn_types::limits::{FILE_BYTES, RECORD_BYTES};
use yestrwyn_types::record::{kind, read, Record};
use yestrwyn_types::{Cells, MergeRefusal, Merged, Reason, Tables, Verdict, LENGTHS};
use yestrwyn_vectors::examples::merges::{examples, Merge};
use yestrwyn_vectors::merges::{damaged_pair, random_pair};
use yestrwyn_vectors::sketch::{app, neg, pos, var, Sketch};

/// The pair of a name.
fn named(name: &str) -> Merge {
    examples().into_iter().find(|pair| pair.name == name).unwrap_or_else(|| panic!("no pair {name}"))
}

/// The four numbers that a pair gives.
fn numbers(pair: &Merge) -> [u32; 4] {
    let mut output = vec![0; FILE_BYTES];
    merge_into(&pair.first, &pair.second, &mut Cells::new().lend(), &mut output).numbers()
}

/// Symbols of these arities, written one after another.
fn symbols<const COUNT: usize>(file: &mut Sketch, arities: [u8; COUNT]) -> [u16; COUNT] {
    arities.map(|arity| file.symbol(arity))
}

/// The records of a file.
fn records(file: &[u8]) -> Vec<Record> {
    (0..).map_while(|number| read(file, number)).collect()
}

/// The verdict on a day, as the first line of the readout.
fn verdict(day: u16, file: &[u8]) -> String {
    check(day, file).verdict.to_string()
}

#[test]
fn every_number_by_hand() {
    // Symbols p of one argument and a; rows x, p(x); clause 0 -p(x), in force from day 1 to 2.
    let mut first = Sketch::new();
    let p = symbols(&mut first, [1, 0])[0];
    first.clause(&[neg(app(p, [var(0)]))]);
    first.window(0, 1, 2);
    // The same symbols and b; rows y, a, b, p(a), p(y) twice; clauses +p(a) and -p(y) +p(y); days of both.
    let mut second = Sketch::new();
    symbols(&mut second, [1, 0, 0]);
    let p_y = (3, 1, vec![0, 0]);
    let rows = [(2, 0, vec![7]), (3, 0, vec![1]), (3, 0, vec![2]), (3, 1, vec![0, 1]), p_y.clone(), p_y];
    for (kind, count, given) in rows {
        second.fields(kind, count, &given);
    }
    second.fields(4, 1, &[7]);
    second.fields(4, 2, &[8, 11]);
    second.window(1, 258, 65_535);
    second.window(0, 0, 0);
    let merged = merge(first.bytes(), second.bytes()).expect("it is written");
    let (start, rest) = merged.split_at(first.bytes().len());
    assert_eq!(start, first.bytes());
    let right = [
        (1, 0, vec![]),
        (2, 0, vec![7]),
        (3, 0, vec![1]),
        (3, 0, vec![2]),
        (3, 1, vec![0, 3]),
        (3, 1, vec![0, 2]),
        (3, 1, vec![0, 2]),
        (4, 1, vec![11]),
        (4, 2, vec![12, 15]),
        (8, 0, vec![2, 258, 65_535]),
        (8, 0, vec![1, 0, 0]),
    ];
    assert_eq!(records(rest), right.map(|(kind, count, given)| Record::new(kind, count, &given)));
    let lines = "open\n0 1 -s0(v0.1)\n1 1 +s0(s1)\n2 1 -s0(v7.1) +s0(v7.1)\n";
    assert_eq!(String::from_utf8(readout(0, &merged)).expect("text"), lines);
}

#[test]
fn every_argument_and_literal_is_raised() {
    let pair = named("every-field");
    let merged = merge(&pair.first, &pair.second).expect("it is written");
    let rest = records(&merged[pair.first.len()..]);
    // Five rows in each file: a, x, y and two of six arguments.
    let rows = rest.iter().filter(|record| record.kind == kind::APPLICATION && record.count == 6);
    let fields: Vec<[u16; 7]> = rows.map(|row| row.fields).collect();
    assert_eq!(fields, [[0, 5, 6, 7, 5, 6, 7], [0, 8, 7, 6, 5, 8, 5]]);
    assert_eq!(rest[rest.len() - 1], Record::new(4, 7, &[17, 18, 17, 17, 18, 18, 17]));
}

#[test]
fn the_longer_list_of_symbols() {
    let arities = |file: &[u8]| -> Vec<u8> {
        let symbols = records(file).into_iter().filter(|record| record.kind == kind::SYMBOL);
        symbols.map(|record| record.count).collect()
    };
    for (name, count) in [
        ("equal-symbols", 5),
        ("first-list-begins-the-second", 5),
        ("second-list-begins-the-first", 5),
        ("symbols-between-the-records", 4),
        ("the-other-way-round", 5),
        ("a-file-with-itself", 4),
        ("symbols-alone-twice", 5),
        ("symbols-alone-and-more", 5),
        ("symbols-past-the-first", 6),
        ("neither-with-symbols", 0),
    ] {
        let Merge { first, second, .. } = named(name);
        let merged = arities(&merge(&first, &second).expect(name));
        let [one, other] = [arities(&first), arities(&second)];
        assert_eq!(merged.len(), count, "{name}");
        assert_eq!(merged, if one.len() < other.len() { other } else { one }, "{name}");
    }
}

#[test]
fn lengths_of_merged_files() {
    let written = |name: &str| numbers(&named(name));
    for name in [
        "4096-records",
        "4096-records-of-the-first",
        "4096-records-of-the-second",
        "4096-records-without-the-symbols",
        "4096-records-with-more-symbols",
        "4096-symbols-twice",
        "largest-row-number",
        "largest-clause-number",
    ] {
        assert_eq!(written(name), [0, 65_536, 0, 0], "{name}");
    }
    for name in [
        "4097-records",
        "4096-records-and-one",
        "one-and-4096-records",
        "4096-records-twice",
        "4097-records-without-the-symbols",
        "4097-records-with-more-symbols",
        "4096-symbols-and-a-row",
        "19-alone",
    ] {
        assert_eq!(written(name), [2, 19, 0, 0], "{name}");
    }
    assert_eq!(written("both-empty"), [0; 4]);
    assert_eq!(written("first-empty"), [0, named("first-empty").second.len() as u32, 0, 0]);
    assert_eq!(written("second-empty"), [0, named("second-empty").first.len() as u32, 0, 0]);
}

#[test]
fn the_largest_numbers() {
    let rows = named("largest-row-number");
    let merged = records(&merge(&rows.first, &rows.second).expect("it is written"));
    assert_eq!(merged[4094], Record::new(4, 2, &[2 * 4092 + 1, 2 * 4091]));
    assert_eq!(merged[4095], Record::new(3, 1, &[0, 4092]));
    let clauses = named("largest-clause-number");
    let merged = records(&merge(&clauses.first, &clauses.second).expect("it is written"));
    assert_eq!(merged[4095], Record::new(8, 0, &[4094, 258, 515]));
}

#[test]
fn refusals_by_their_names() {
    let mut met = 0;
    for pair in examples() {
        let mut words = pair.name.split('-');
        let reason = words.next().and_then(|word| word.parse::<u32>().ok()).filter(|&reason| reason < 19);
        let ([kind, what, file, _], Some(reason)) = (numbers(&pair), reason) else { continue };
        let number = words.nth(1).and_then(|word| word.parse::<u32>().ok());
        assert_eq!((kind, what, Some(file)), (2, reason, number), "{}", pair.name);
        met += 1;
    }
    assert!(met > 35, "{met} refusals");
}

#[test]
fn refusals_name_the_record() {
    let record = |name: &str| numbers(&named(name))[3];
    // The rulebook has five symbols, five rows and two clauses; the trip four symbols, five rows and two clauses.
    for (name, right) in [
        ("1-file-1", 0),
        ("3-file-1", 12),
        ("3-file-2", 11),
        ("16-file-1", 12),
        ("16-file-2", 11),
        ("18-file-2-symbol-0", 0),
        ("18-file-2-symbol-4", 4),
        ("18-file-2-late-symbol", 18),
        ("18-file-2-first-of-two", 2),
        ("18-file-2-the-longer-list", 1),
        ("17-file-1-an-accepted-file", 5),
    ] {
        assert_eq!(record(name), right, "{name}");
    }
    for pair in examples().into_iter().filter(|pair| pair.name.starts_with("17-")) {
        let [_, _, file, record] = numbers(&pair);
        let bytes = if file == 1 { &pair.first } else { &pair.second };
        let first = records(bytes).iter().position(|record| (5..=7).contains(&record.kind));
        assert_eq!(Some(record as usize), first, "{}", pair.name);
    }
}

/// A file that the other does not go with is still checked whole: its own refusal comes first.
#[test]
fn a_refusal_of_the_first_ends_the_work() {
    let pair = named("16-file-1-in-both");
    let [mut cells, mut first] = [Cells::new(), Cells::new()];
    let merged = merge_into(&pair.first, &pair.second, &mut cells.lend(), &mut vec![0; FILE_BYTES]);
    check_into(0, &pair.first, &mut first.lend());
    let refusal = MergeRefusal { reason: Reason::Crossed, file: 1, record: 12 };
    assert_eq!((merged, merge(&pair.first, &pair.second)), (Merged::Refused(refusal), Err(refusal)));
    // The tables are as the first check left them.
    assert!(cells == first);
}

/// What a merge is lent: tables of marks, each longer than it must be by some cells or shorter, and an output of marks.
struct Lent {
    tables: [Vec<u16>; 4],
    output: Vec<u8>,
}

impl Lent {
    fn new(more: [isize; 4], output: usize) -> Lent {
        let mut lengths = LENGTHS.iter().zip(more);
        let tables = [(); 4].map(|()| {
            let (&length, more) = lengths.next().expect("four lengths");
            vec![0xabcd; length.saturating_add_signed(more)]
        });
        Lent { tables, output: (0..output).map(|place| place as u8 ^ 0x5a).collect() }
    }

    fn tables(&mut self) -> Tables<'_> {
        let [symbols, rows, clauses, bindings] = &mut self.tables;
        Tables { symbols, rows, clauses, bindings }
    }

    fn merge(&mut self, pair: &Merge) -> Merged {
        let [symbols, rows, clauses, bindings] = &mut self.tables;
        let mut tables = Tables { symbols, rows, clauses, bindings };
        merge_into(&pair.first, &pair.second, &mut tables, &mut self.output)
    }
}

#[test]
fn a_short_output_touches_nothing() {
    for name in ["equal-symbols", "both-empty", "17-file-1-in-both", "1-file-1", "18-file-2-symbol-0"] {
        for length in [0, 1, 16, 4096, 65_535] {
            // A short table does not matter: the output comes before all else.
            for more in [[0; 4], [-1, 0, 0, 0]] {
                let mut lent = Lent::new(more, length);
                assert_eq!(lent.merge(&named(name)).numbers(), [2, 2, 0, 0], "{name}, {length} bytes");
                let before = Lent::new(more, length);
                assert!(
                    lent.tables == before.tables && lent.output == before.output,
                    "{name}, {length} bytes"
                );
            }
        }
        assert_ne!(Lent::new([0; 4], 65_536).merge(&named(name)).numbers(), [2, 2, 0, 0], "{name}");
    }
}

#[test]
fn short_tables_are_the_first_files_refusal() {
    for short in 0..4 {
        let more = [0, 1, 2, 3].map(|table| if table == short { -1 } else { 1 });
        let mut lent = Lent::new(more, 65_536);
        assert_eq!(lent.merge(&named("equal-symbols")).numbers(), [2, 2, 1, 0]);
        let before = Lent::new(more, 65_536);
        assert!(lent.tables == before.tables && lent.output == before.output);
        // A length that does not fit comes before a short table, as in any check.
        assert_eq!(lent.merge(&named("1-file-1")).numbers(), [2, 1, 1, 0]);
        assert_eq!(lent.merge(&named("1-file-2")).numbers(), [2, 2, 1, 0]);
    }
}

/// Named, random and damaged pairs.
fn pairs() -> impl Iterator<Item = Merge> {
    examples().into_iter().chain((0..800).map(random_pair)).chain((0..800).map(damaged_pair))
}

#[test]
fn tables_and_output_are_left_alone_where_they_must_be() {
    for (pair, more) in pairs().zip([0, 1, 3].into_iter().cycle()) {
        let mut lent = Lent::new([more as isize; 4], 65_536 + more);
        let merged = lent.merge(&pair);
        let mut theirs = Lent::new([more as isize; 4], 65_536 + more);
        let answer = check_into(0, &pair.first, &mut theirs.tables());
        if !matches!(answer.verdict, Verdict::Refused { .. }) {
            check_into(0, &pair.second, &mut theirs.tables());
        }
        assert!(lent.tables == theirs.tables, "{}", pair.name);
        let written = merged.length().unwrap_or(0);
        assert!(lent.output[written..] == theirs.output[written..], "{}", pair.name);
        assert_eq!(
            merged.length().map(|length| &lent.output[..length]),
            merge(&pair.first, &pair.second).ok().as_deref()
        );
    }
}

/// What the comparison of random pairs has met.
#[derive(Default, Debug)]
struct Met {
    written: usize,
    /// Refused for the reason of a check, and with 17, 18 and 19.
    refused: [usize; 4],
    /// Written with clauses of both files, with windows in the second, and with rows of the second that repeat the first's.
    both: usize,
    windows: usize,
    repeated: usize,
    full: usize,
}

/// Merges a pair and compares it with what the two files say as terms.
fn compare(pair: &Merge, met: &mut Met) {
    let Merge { name, first, second } = pair;
    let mut terms = Terms::default();
    let mut refuse = |reason: u16, file: u16, record: usize| {
        met.refused[usize::from(reason.max(16) - 16)] += 1;
        Err(MergeRefusal { reason: Reason::from_number(reason), file, record: record as u16 })
    };
    let expected = match merging::refusal(first, second) {
        Some((reason, file, record)) => refuse(reason, file, record),
        None => Ok([first, second].map(|file| terms.contents(file))),
    };
    let merged = merge(first, second);
    assert_eq!(merged.as_ref().err(), expected.as_ref().err(), "{name}");
    let (Ok(merged), Ok([one, other])) = (merged, expected) else { return };
    let rows = [&one, &other].map(|contents| contents.rows.len());
    met.written += 1;
    met.both += usize::from(!one.clauses.is_empty() && !other.clauses.is_empty());
    met.windows += usize::from(other.clauses.iter().any(|clause| clause.days != (0, u16::MAX)));
    met.repeated += usize::from(rows[0] > 0 && other.rows.iter().any(|row| one.rows.contains(row)));
    met.full += usize::from(merged.len() == FILE_BYTES);
    assert!(merged.starts_with(first), "{name}");
    assert_eq!(terms.contents(&merged), Contents::joined(one, other), "{name}");
    same_answers(pair, &merged);
}

/// The merged file stands on every day, and its readout is the first's, then the second's.
fn same_answers(Merge { name, first, second }: &Merge, merged: &[u8]) {
    let clauses = check(0, first).clauses;
    for day in [0, 1, 5, 11, 15, 20, 255, 256, u16::MAX] {
        let answers = [first, second].map(|file| check(day, file).verdict);
        let right = match answers {
            [Verdict::Accepted(clause), _] => Verdict::Accepted(clause),
            [_, Verdict::Accepted(clause)] => Verdict::Accepted(clauses + clause),
            _ => Verdict::Open,
        };
        assert_eq!(check(day, merged).verdict, right, "{name} on day {day}");
    }
    let lines = |file: &[u8]| -> Vec<String> {
        let text = String::from_utf8(readout(0, file)).expect("text");
        let literals = text.lines().skip(1).map(|line| line.split_once(' ').map_or("", |(_, rest)| rest));
        literals.map(str::to_string).collect()
    };
    assert_eq!(lines(merged), [lines(first), lines(second)].concat(), "{name}");
}

#[test]
fn the_merged_file_says_what_the_two_say() {
    let mut met = Met::default();
    for pair in examples().into_iter().chain((0..3000).map(random_pair)).chain((0..1500).map(damaged_pair)) {
        compare(&pair, &mut met);
    }
    assert!(met.written > 1500 && met.both > 900 && met.windows > 500 && met.repeated > 600, "{met:?}");
    assert!(met.refused.iter().all(|&refused| refused > 60) && met.full > 30, "{met:?}");
}

/// Three files can be merged in either order of work, and a file without records adds nothing.
#[test]
fn three_files() {
    let mut met = 0;
    for seed in 0..400 {
        let Merge { first, second, name } = random_pair(seed);
        let Ok(both) = merge(&first, &second) else { continue };
        assert_eq!(merge(&both, &[]).as_ref(), Ok(&both), "{name}");
        assert_eq!(merge(&[], &both).as_ref(), Ok(&both), "{name}");
        let left = merge(&both, &first);
        let right = merge(&second, &first).and_then(|others| merge(&first, &others));
        assert_eq!(left, right, "{name}");
        met += usize::from(left.is_ok());
    }
    assert!(met > 200, "{met} times");
}

/// The operator's rules in one file, the trip's facts in the other: what is appended to the merged file refers to both.
#[test]
fn a_proof_from_both_files() {
    let mut rules = Sketch::new();
    let [closed, lands, lakeside] = symbols(&mut rules, [1, 1, 0]);
    rules.clause(&[neg(app(lands, [var(0)])), neg(app(closed, [var(0)]))]);
    rules.clause(&[pos(app(closed, [app(lakeside, [])]))]);
    rules.window(1, 100, 200);
    let mut facts = Sketch::new();
    symbols(&mut facts, [1, 1, 0]);
    facts.clause(&[pos(app(lands, [app(lakeside, [])]))]);
    facts.window(0, 150, 160);
    let merged = merge(rules.bytes(), facts.bytes()).expect("it is written");
    assert_eq!(verdict(155, &merged), "open");
    let mut steps = Sketch::new();
    steps.resolve(2, 1, 0, 1);
    steps.resolve(1, 1, 3, 1);
    let proof = [merged, steps.finish()].concat();
    let verdicts = [99, 149, 150, 160, 161].map(|day| verdict(day, &proof));
    assert_eq!(verdicts, ["open", "open", "accepted 4", "accepted 4", "open"]);
}

/// Rows of the second file that repeat the first's are taken as these, and the file stands all the same.
#[test]
fn rows_across_the_two_files() {
    let pair = named("rows-that-repeat");
    let merged = merge(&pair.first, &pair.second).expect("it is written");
    let mut cells = Cells::new();
    let answer = check_into(0, &merged, &mut cells.lend());
    assert_eq!(answer.numbers(), [0, 0, 0, 5, 8, 2, 0]);
    assert_eq!(cells.rows[..8], [5, 5, 7, 7, 5, 5, 7, 7]);
    assert_eq!(merged.len(), (5 + 2 * 5) * RECORD_BYTES);
}
