//! Repeated rows: what each is taken as, in tables, bindings and readouts, and files with and without them.

mod reference;

use reference::{Reference, Row};
use yestrwyn_second::check;
use yestrwyn_second::checker::Checker;
use yestrwyn_second::clause::Origin;
use yestrwyn_types::record::{input_literals, kind, read, Record};
use yestrwyn_types::Verdict;
use yestrwyn_vectors::examples::{cases, edges, published, refusals, repeats, Example};
use yestrwyn_vectors::outcome::{outcome, Outcome};
use yestrwyn_vectors::repeating::{rows_at_random, rows_twice, Repeated};
use yestrwyn_vectors::{clashing_file, damage, random_file, random_file_of, repeating_file, several_file};

/// The outcome of a case by its name.
fn case(name: &str) -> Outcome {
    let example =
        repeats::cases().into_iter().find(|example| example.name == name).expect("a case of that name");
    outcome(&example.file)
}

fn text(outcome: &Outcome) -> &str {
    std::str::from_utf8(&outcome.readout).expect("a readout is ASCII")
}

fn works(outcome: &Outcome) -> Vec<u32> {
    outcome.works.iter().map(|step| step.work).collect()
}

#[test]
fn a_variable_twice_in_one_clause() {
    let clause = case("J-in-one-clause");
    assert_eq!(clause.answer.numbers(), [0, 0, 0, 1, 4, 2, 0]);
    assert_eq!(clause.used()[1], [1, 1, 3, 3], "the records of the first rows");
    assert_eq!(works(&clause), [1], "equal rows at one index are one pair");
    assert_eq!(text(&clause), "open\n0 1 +s0(v0.1,v0.1) +s0(v0.1,v0.1)\n1 1 +s0(v0.1,v0.1)\n");
}

#[test]
fn repeats_of_repeats() {
    let rows = case("J-through-arguments");
    // Two symbols, then x, x, f(x), f(x), g of them, g, g.
    assert_eq!(rows.used()[1], [2, 2, 4, 4, 6, 6, 6]);
    assert_eq!((rows.answer.numbers(), works(&rows)), ([0, 0, 0, 2, 7, 3, 0], vec![1, 1]));
    assert!(text(&rows).ends_with("2 1 +s1(s0(v0.1),s0(v0.1))\n"));
}

#[test]
fn a_repeated_row_as_literal_and_in_a_binding() {
    let literal = case("J-as-literal");
    assert_eq!(literal.answer.numbers(), [1, 3, 0, 2, 8, 4, 0]);
    assert_eq!(literal.used()[1], [2, 3, 2, 3, 2, 3, 2, 3]);
    // Rows: 0 x, 1 x, 2 a, 3 a, 4 p of row 1, 5 p of row 3. Both bindings are of row 0 to row 2.
    let binding = case("J-in-a-binding");
    assert_eq!(binding.used()[3], [0, 1, 2, 2, 0, 2, 2, 1]);
    assert_eq!(works(&binding), [3, 3]);
    // y, which is row 2, is bound to f(z) as x is, to row 6 with the first z.
    let below = case("J-below-a-binding");
    assert_eq!(below.used()[3], [0, 1, 6, 2, 2, 1, 6, 2]);
    assert_eq!(works(&below), [7, 1, 1]);
}

#[test]
fn equal_terms_and_others() {
    let other = case("J-variable-and-constant");
    assert_eq!(other.used()[1], [2, 3, 4, 5, 6]);
    assert_eq!(text(&other).lines().nth(1), Some("0 1 +s1(v0.1,s0) +s1(s0,s0) +s1(s0,v0.1)"));
    // Three symbols, a and b, and seven terms; then the same seven again.
    let six = case("J-six-arguments");
    assert_eq!(six.used()[1], [&[3, 4], &[5, 6, 7, 8, 9, 10, 11][..], &[5, 6, 7, 8, 9, 10, 11]].concat());
    assert_eq!((works(&six), six.answer.verdict), (vec![7], Verdict::Open));
    let chains = case("J-two-chains");
    assert_eq!((works(&chains), chains.answer.bindings), (vec![4, 4], 2));
}

#[test]
fn cases_without_sharing_read_out_alike() {
    for (name, shared) in [
        ("J-no-rows-shared", cases::case_a()),
        ("J-case-A-twice", cases::case_a()),
        ("J-case-F-twice", cases::case_f()),
    ] {
        let (ours, shared) = (case(name), outcome(&shared));
        assert_eq!((text(&ours), works(&ours)), (text(&shared), works(&shared)), "{name}");
        assert!(ours.answer.rows > shared.answer.rows, "{name}");
    }
}

#[test]
fn four_thousand_times_one_row() {
    let all = outcome(&repeats::one_row(4000));
    assert_eq!(all.answer.numbers(), [0, 0, 0, 1, 4001, 94, 93]);
    assert!(all.used()[1][1..].iter().all(|&record| record == 2), "all are the first");
    assert!(all.used()[3].chunks(4).all(|binding| binding == [0, 1, 0, 2]));
}

/// The clause reader gives the literals as the file has them; the check has them on the earliest rows.
#[test]
fn the_clause_reader_gives_what_the_file_has() {
    let (mut compared, mut differing) = (0, 0);
    for seed in 0..200 {
        let file = repeating_file(seed);
        let mut checker = Checker::new();
        let state = Reference::check(&file);
        for number in 0.. {
            let Some(record) = read(&file, number) else { break };
            if checker.record(&record.to_bytes()).is_err() {
                break;
            }
        }
        for clause in checker.clauses() {
            let Origin::Input(codes) = clause.origin else { continue };
            let (count, literals) = input_literals(&file, clause.record);
            assert_eq!(
                Some(Record { kind: kind::INPUT, count, fields: literals }),
                read(&file, clause.record)
            );
            let earliest = |code: u16| 2 * state.earliest(code / 2) + code % 2;
            assert!(literals
                .iter()
                .zip(codes)
                .take(count.into())
                .all(|(&code, ours)| earliest(code) == ours));
            compared += 1;
            differing += usize::from(literals != codes);
        }
    }
    assert!(compared > 800 && differing > 300, "{compared} clauses, {differing} on repeated rows");
}

/// Two rows are taken as one exactly if they are the same term as the file has it.
fn terms_are_rows(name: &str, file: &[u8]) -> usize {
    let state = Reference::check(file);
    let rows = state.rows.len() as u16;
    if (0..rows).any(|row| size(&state, row) > 500) {
        return 0;
    }
    let terms: Vec<String> = (0..rows).map(|row| state.written_out(row)).collect();
    for (row, term) in (0..rows).zip(&terms) {
        let first = terms.iter().position(|other| other == term).expect("the row itself");
        assert_eq!(usize::from(state.earliest(row)), first, "row {row} of {name}");
    }
    terms.len()
}

/// How many occurrences a row has, written out.
fn size(state: &Reference, row: u16) -> usize {
    match &state.rows[usize::from(row)].1 {
        Row::Variable(_) => 1,
        Row::Application(_, arguments) => {
            arguments.iter().fold(1, |sum, &argument| sum.saturating_add(size(state, argument).min(1000)))
        }
    }
}

#[test]
fn rows_are_taken_as_one_if_their_terms_are() {
    let rows: usize =
        (0..400).map(|seed| terms_are_rows(&format!("repeating {seed}"), &repeating_file(seed))).sum();
    assert!(rows > 4000, "{rows} rows");
}

/// A file in which every use of a row names the earliest that equals it.
fn earliest_used(file: &[u8]) -> Vec<u8> {
    let state = Reference::check(file);
    let replaced = |row: u16| if usize::from(row) < state.rows.len() { state.earliest(row) } else { row };
    let stands = state.refusal.map_or(file.len(), |(_, record)| 16 * usize::from(record));
    let mut bytes = Vec::new();
    for part in file[..stands].chunks(16) {
        let mut record = Record::from_bytes(part.try_into().expect("sixteen bytes"));
        let used = usize::from(record.count);
        match record.kind {
            kind::APPLICATION => record.fields[1..=used].iter_mut().for_each(|row| *row = replaced(*row)),
            kind::INPUT => record.fields.iter_mut().take(used).for_each(|code| {
                *code = 2 * replaced(*code / 2) + *code % 2;
            }),
            _ => {}
        }
        bytes.extend(record.to_bytes());
    }
    bytes.extend_from_slice(&file[stands..]);
    bytes
}

#[test]
fn to_name_the_earliest_row_alters_nothing() {
    let mut altered = 0;
    for seed in 0..2000 {
        let file = match seed % 4 {
            0 => damage(&repeating_file(seed), seed),
            _ => repeating_file(seed),
        };
        let replaced = earliest_used(&file);
        altered += usize::from(replaced != file);
        assert_eq!(outcome(&replaced), outcome(&file), "repeating {seed}");
    }
    assert!(altered > 1000, "{altered} files differ");
}

/// A file and one with the same clauses and steps whose rows are repeated give the same, but for the numbers of
/// records and rows. Says whether there are more rows.
fn same_but_for_numbers(name: &str, file: &[u8], repeated: Repeated) -> bool {
    let (ours, plain) = (outcome(&repeated.file), outcome(file));
    let record = |number: u16| repeated.records.get(usize::from(number)).copied().unwrap_or(number);
    let verdict = match plain.answer.verdict {
        Verdict::Refused { reason, record: number } => Verdict::Refused { reason, record: record(number) },
        other => other,
    };
    assert_eq!(ours.answer.verdict, verdict, "{name}");
    let counts =
        |outcome: &Outcome| [outcome.answer.symbols, outcome.answer.clauses, outcome.answer.bindings];
    assert_eq!((counts(&ours), works(&ours)), (counts(&plain), works(&plain)), "{name}");
    let lines = |outcome: &Outcome| text(outcome).lines().skip(1).map(str::to_string).collect::<Vec<_>>();
    assert_eq!(lines(&ours), lines(&plain), "{name}");
    let clauses = plain.used()[2].chunks(5).flat_map(|cells| [&[record(cells[0])], &cells[1..]].concat());
    assert!(ours.used()[2].iter().copied().eq(clauses), "{name}");
    // The rows that bindings name are earliest ones, which stand for the first time in both files.
    let bindings =
        plain.used()[3].chunks(2).flat_map(|cells| [repeated.rows[usize::from(cells[0])], cells[1]]);
    assert!(ours.used()[3].iter().copied().eq(bindings), "{name}");
    ours.answer.rows > plain.answer.rows
}

#[test]
fn repeated_rows_alter_numbers_only() {
    let mut more = 0;
    for seed in 0..1500 {
        let file = match seed % 6 {
            5 => several_file(seed),
            0 => clashing_file(seed),
            1 => damage(&random_file(seed), seed),
            2 => random_file_of(seed, 100),
            _ => random_file(seed),
        };
        let name = format!("seed {seed}");
        more += usize::from(same_but_for_numbers(&name, &file, rows_at_random(&file, seed)));
        same_but_for_numbers(&name, &file, rows_twice(&file));
    }
    assert!(more > 1000, "{more} files have more rows");
}

#[test]
fn named_files_with_their_rows_twice() {
    let named = [cases::examples(), published(), refusals::examples(), edges::examples()].concat();
    for Example { name, file, .. } in named {
        same_but_for_numbers(&name, &file, rows_twice(&file));
    }
}

#[test]
fn no_file_is_refused_with_6() {
    for seed in 0..3000 {
        for file in
            [repeating_file(seed), damage(&repeating_file(seed), seed), damage(&random_file(seed), seed)]
        {
            let numbers = check(0, &file).numbers();
            assert!(numbers[0] != 2 || numbers[1] != 6, "seed {seed}");
        }
    }
}
