//! Going on from a file that is there already: what is read and what is refused beside the check, handles by number, and
//! steps that are appended to a merged file.

use yestrwyn_builder::{neg, pos, BuildError, FileBuilder, ReadError, Reason, RunningBuilder};
use yestrwyn_second::{check, merge, readout};
use yestrwyn_types::limits::RECORD_BYTES;
use yestrwyn_types::Verdict;
use yestrwyn_vectors::examples::{cases, days, edges, published, refusals};
use yestrwyn_vectors::merges::random_pair;
use yestrwyn_vectors::{
    clashing_several_file, damage, dated_file, random_file, repeating_file, several_file,
};

/// What both builders make of a file: the second reads it if and only if it stands, and otherwise says which record is
/// refused, and why; the first as far as no step has to be run for it.
fn same(name: &str, file: &[u8]) -> Verdict {
    let verdict = check(0, file).verdict;
    let (plain, running) = (FileBuilder::from_bytes(file), RunningBuilder::from_bytes(file));
    match verdict {
        Verdict::Refused { reason: Reason::Length, .. } => {
            assert_eq!(plain.err(), Some(ReadError::Length(file.len())), "{name}");
            assert_eq!(running.err(), Some(ReadError::Length(file.len())), "{name}");
        }
        Verdict::Refused { reason, record } => {
            let refused = Some(ReadError::Record { record, reason });
            assert_eq!(running.err(), refused, "{name}");
            if matches!(reason.number(), 3..=5 | 7 | 16) {
                assert_eq!(plain.err(), refused, "{name}");
            }
        }
        _ => {
            let (plain, running) = (plain.expect(name), running.expect(name));
            assert!(plain.bytes() == file && running.bytes() == file, "{name}");
            same_clauses(name, file, &running);
        }
    }
    verdict
}

/// The clauses of a file that was read, and what is accepted on some days, are those of the check.
fn same_clauses(name: &str, file: &[u8], running: &RunningBuilder) {
    let text = String::from_utf8(readout(0, file)).expect("text");
    for (number, line) in (0..).zip(text.lines().skip(1)) {
        let clause = running.existing_clause(number).expect(name);
        let literals = running.literals(clause).expect(name);
        let texts: Vec<String> = literals.iter().map(|literal| running.text(literal)).collect();
        assert_eq!(texts.join(" "), line.splitn(3, ' ').nth(2).unwrap_or(""), "{name}, clause {number}");
    }
    for day in [0, 1, 10, 20, 21_000, u16::MAX] {
        let ours = running.accepted(day).map_or(Verdict::Open, |clause| Verdict::Accepted(clause.number()));
        assert_eq!(ours, check(day, file).verdict, "{name} on day {day}");
    }
}

#[test]
fn named_files() {
    let examples = [cases::examples(), published(), refusals::examples(), days::examples()].concat();
    for example in examples {
        same(&example.name, &example.file);
    }
    for example in edges::examples() {
        // Files of some thousand steps take long to be read out through their parents.
        let steps = example.file.iter().step_by(RECORD_BYTES).filter(|kind| (5..=7).contains(*kind)).count();
        if steps < 500 {
            same(&example.name, &example.file);
        }
    }
}

#[test]
fn random_files() {
    let (mut read, mut refused) = (0, 0);
    for seed in 0..700 {
        let files = [
            random_file(seed),
            repeating_file(seed),
            several_file(seed),
            dated_file(seed).1,
            clashing_several_file(seed),
            random_pair(seed).first,
        ];
        for (place, file) in files.iter().enumerate() {
            for file in [file.clone(), damage(file, seed)] {
                match same(&format!("seed {seed}, file {place}"), &file) {
                    Verdict::Refused { .. } => refused += 1,
                    _ => read += 1,
                }
            }
        }
    }
    assert!(read > 3000 && refused > 2000, "{read} read, {refused} refused");
}

/// The records of a rulebook: p of one argument and a; x twice, p of the second x, a; -p(x), in force from day 10 to 20.
fn rulebook() -> Vec<u8> {
    let record =
        |kind: u8, count: u8, [a, b, c]: [u8; 3]| [kind, count, a, 0, b, 0, c, 0, 0, 0, 0, 0, 0, 0, 0, 0];
    [
        record(1, 1, [0; 3]),
        record(1, 0, [0; 3]),
        record(2, 0, [0; 3]),
        record(2, 0, [0; 3]),
        record(3, 1, [0, 1, 0]),
        record(3, 0, [1, 0, 0]),
        record(4, 1, [4, 0, 0]),
        record(8, 0, [0, 10, 20]),
    ]
    .concat()
}

#[test]
fn what_is_there_is_named_by_its_number() -> Result<(), BuildError> {
    let mut file = FileBuilder::from_bytes(&rulebook()).expect("it stands");
    let (p, a) = (file.existing_symbol(0)?, file.existing_symbol(1)?);
    assert_eq!(((p.number(), p.arity()), (a.number(), a.arity())), ((0, 1), (1, 0)));
    // A row that repeats another is that other.
    let rows = [0, 1, 2, 3].map(|number| file.existing_row(number).map(|row| row.number()));
    assert_eq!(rows, [Ok(0), Ok(0), Ok(2), Ok(3)]);
    assert_eq!(file.existing_symbol(2), Err(BuildError::NoSymbol { number: 2, symbols: 2 }));
    assert_eq!(file.existing_row(4), Err(BuildError::NoRow { number: 4, rows: 4 }));
    assert_eq!(file.existing_clause(1), Err(BuildError::NoClause { number: 1, clauses: 1 }));
    // Terms that are there are not written again, also where they were written with a repeated row.
    let (x, constant) = (file.variable(0)?, file.constant(a)?);
    let px = file.apply(p, &[x])?;
    assert_eq!([x, px, constant].map(|row| row.number()), [0, 2, 3]);
    assert_eq!(file.bytes(), rulebook());
    // What is new comes after it.
    let pa = file.apply(p, &[constant])?;
    let fact = file.clause(&[pos(pa)])?;
    let rule = file.existing_clause(0)?;
    let empty = file.resolve(fact.literal(1), rule.literal(1))?;
    file.in_force(fact, 15..=30)?;
    assert_eq!([pa.number(), fact.number(), empty.number()], [4, 1, 2]);
    let verdicts = [9, 14, 15, 20, 21].map(|day| check(day, file.bytes()).verdict.to_string());
    assert_eq!(verdicts, ["open", "open", "accepted 2", "accepted 2", "open"]);
    Ok(())
}

#[test]
fn days_that_are_there_count_for_the_running_builder() -> Result<(), BuildError> {
    let mut file = RunningBuilder::from_bytes(&rulebook()).expect("it stands");
    let (p, a, rule) = (file.existing_symbol(0)?, file.existing_symbol(1)?, file.existing_clause(0)?);
    let constant = file.constant(a)?;
    assert_eq!(file.existing_row(3)?, constant);
    let pa = file.apply(p, &[constant])?;
    let fact = file.clause(&[pos(pa)])?;
    let step = file.resolve(fact.literal(1), rule.literal(1))?;
    assert!(step.is_empty());
    assert_eq!([9, 10, 20, 21].map(|day| file.accepted(day).is_some()), [false, true, true, false]);
    // The rule is superseded.
    file.in_force(rule, 5..=9)?;
    assert_eq!([4, 5, 9, 10].map(|day| file.accepted(day).is_some()), [false, true, true, false]);
    Ok(())
}

/// The rules in one file and the facts in the other, merged; a proof from both is appended.
#[test]
fn a_proof_appended_to_a_merged_file() -> Result<(), BuildError> {
    let mut trip = FileBuilder::new();
    let (p, a) = (trip.symbol(1)?, trip.symbol(0)?);
    let constant = trip.constant(a)?;
    let pa = trip.apply(p, &[constant])?;
    let fact = trip.clause(&[pos(pa), pos(pa)])?;
    trip.in_force(fact, 20..=25)?;
    let merged = merge(&rulebook(), trip.bytes()).expect("both stand");
    let mut plain = FileBuilder::from_bytes(&merged).expect("it stands");
    let mut running = RunningBuilder::from_bytes(&merged).expect("it stands");
    let (rule, fact) = (plain.existing_clause(0)?, plain.existing_clause(1)?);
    let both = [fact.literal(1), fact.literal(2)];
    plain.resolve_several(rule.literal(1), &both)?;
    assert!(running.resolve_several(rule.literal(1), &both)?.is_empty());
    assert_eq!(plain.bytes(), running.bytes());
    let proof = plain.finish();
    assert!(proof.starts_with(&merged));
    let verdicts = [10, 19, 20, 21].map(|day| check(day, &proof).verdict.to_string());
    assert_eq!(verdicts, ["open", "open", "accepted 2", "open"]);
    Ok(())
}

/// A file of as many records as there can be is read, and nothing is added to it.
#[test]
fn a_full_file() {
    let full: Vec<u8> = [1, 0, 0, 0, 0, 0, 0, 0, 0, 0, 0, 0, 0, 0, 0, 0].repeat(4096);
    let mut file = FileBuilder::from_bytes(&full).expect("it stands");
    assert_eq!(file.existing_symbol(4095).map(|symbol| symbol.number()), Ok(4095));
    assert_eq!(file.symbol(0), Err(BuildError::Full));
    let long = [full.as_slice(), &[1; 16]].concat();
    assert_eq!(FileBuilder::from_bytes(&long).err(), Some(ReadError::Length(65_552)));
    assert!(FileBuilder::from_bytes(&[]).is_ok_and(|file| file.bytes().is_empty()));
}

/// A file that is cut anywhere and gone on with is the whole file.
#[test]
fn a_file_in_two_parts() -> Result<(), BuildError> {
    let mut whole = FileBuilder::new();
    let mut parts: Vec<Vec<u8>> = Vec::new();
    let (p, a) = (whole.symbol(1)?, whole.symbol(0)?);
    parts.push(whole.bytes().to_vec());
    let constant = whole.constant(a)?;
    let pa = whole.apply(p, &[constant])?;
    parts.push(whole.bytes().to_vec());
    let (yes, no) = (whole.clause(&[pos(pa)])?, whole.clause(&[neg(pa)])?);
    parts.push(whole.bytes().to_vec());
    whole.resolve(yes.literal(1), no.literal(1))?;
    for part in parts {
        let mut file = FileBuilder::from_bytes(&part).expect("it stands");
        let constant = file.constant(file.existing_symbol(1)?)?;
        let pa = file.apply(file.existing_symbol(0)?, &[constant])?;
        let [yes, no] = match file.existing_clause(0) {
            Ok(yes) => [yes, file.existing_clause(1)?],
            Err(_) => [file.clause(&[pos(pa)])?, file.clause(&[neg(pa)])?],
        };
        file.resolve(yes.literal(1), no.literal(1))?;
        assert_eq!(file.bytes(), whole.bytes());
    }
    Ok(())
}

#[test]
fn errors_say_what_is_wrong() {
    let texts = [
        (ReadError::Length(15).to_string(), "a file of 15 bytes, over 65536 or not a multiple of 16"),
        (
            ReadError::Record { record: 7, reason: Reason::Kind }.to_string(),
            "record 7 is refused with 3: the kind is not 1 to 8, or is 8 in the new form",
        ),
        (
            BuildError::NoClause { number: 9, clauses: 3 }.to_string(),
            "clause 9 of a file that has 3, numbered from 0",
        ),
    ];
    for (error, text) in texts {
        assert_eq!(error, text);
    }
}
