//! Files of the new form, written and read by both builders, beside the check and the conversions.

use std::ops::RangeInclusive;

use yestrwyn_builder::{neg, pos, BuildError, FileBuilder, Form, ReadError, Reason, RunningBuilder};
use yestrwyn_second::{check_form, readout, to_new, to_old};
use yestrwyn_types::limits::{NEW_FILE_BYTES, NEW_RECORDS};
use yestrwyn_types::Verdict;
use yestrwyn_vectors::examples::forms::{examples, Formed};
use yestrwyn_vectors::forms::{damaged_form, random_form};

/// +p and -p, refuted, with days for both, +p's twice; and a clause without days after them.
fn written(form: Form) -> Result<Vec<u8>, BuildError> {
    let mut file = FileBuilder::with_form(form);
    assert_eq!(file.form(), form);
    let p = file.symbol(0)?;
    let atom = file.constant(p)?;
    let (yes, no) = (file.clause(&[pos(atom)])?, file.clause(&[neg(atom)])?);
    file.in_force(yes, 1..=2)?;
    let empty = file.resolve(yes.literal(1), no.literal(1))?;
    file.in_force(no, 255..=513)?;
    file.in_force(yes, 256..=512)?;
    let other = file.clause(&[pos(atom), neg(atom)])?;
    assert_eq!([yes, no, empty, other].map(|clause| clause.number()), [0, 1, 2, 3]);
    assert_eq!(file.in_force(empty, 1..=2), Err(BuildError::Derived(2)));
    assert_eq!(file.in_force(yes, RangeInclusive::new(2, 1)), Err(BuildError::Days { first: 2, last: 1 }));
    Ok(file.finish())
}

#[test]
fn the_days_of_a_clause_stand_beside_it() -> Result<(), BuildError> {
    let [old, new] = [written(Form::Old)?, written(Form::New)?];
    assert_eq!([old.len(), new.len()], [9 * 16, 6 * 20]);
    let days: Vec<&[u8]> = new.chunks(20).map(|record| &record[16..]).collect();
    let right = [[0; 4], [0; 4], [0, 1, 0, 2], [255, 0, 1, 2], [0; 4], [0, 0, 255, 255]];
    assert_eq!(days, right.each_ref().map(|bytes| &bytes[..]));
    assert_eq!(to_new(&old).as_ref(), Ok(&new));
    for (day, verdict) in [(255, "open"), (256, "accepted 2"), (512, "accepted 2"), (513, "open")] {
        let verdicts =
            [(Form::Old, &old), (Form::New, &new)].map(|(form, file)| check_form(form, day, file).verdict);
        assert_eq!(verdicts.map(|verdict| verdict.to_string()), [verdict, verdict], "day {day}");
    }
    Ok(())
}

/// What both builders make of a file of the new form: as for the old one, with the record and the reason of the check.
fn same(name: &str, file: &[u8]) -> Verdict {
    let verdict = check_form(Form::New, 0, file).verdict;
    let plain = FileBuilder::from_bytes_form(Form::New, file);
    let running = RunningBuilder::from_bytes_form(Form::New, file);
    match verdict {
        Verdict::Refused { reason: Reason::Length, .. } => {
            assert_eq!(plain.err(), Some(ReadError::NewLength(file.len())), "{name}");
            assert_eq!(running.err(), Some(ReadError::NewLength(file.len())), "{name}");
        }
        Verdict::Refused { reason, record } => {
            let refused = Some(ReadError::Record { record, reason });
            assert_eq!(running.err(), refused, "{name}");
            if matches!(reason.number(), 3..=5 | 7 | 16) {
                assert_eq!(plain.err(), refused, "{name}");
            }
        }
        _ => {
            let (plain, running) = (plain.expect(name), running.expect(name));
            assert!(plain.bytes() == file && running.bytes() == file, "{name}");
            assert_eq!([plain.form(), running.form()], [Form::New; 2]);
            same_clauses(name, file, &running);
        }
    }
    verdict
}

/// The clauses of a file that was read are those of its conversion, and what is accepted on some days is what the check says.
fn same_clauses(name: &str, file: &[u8], running: &RunningBuilder) {
    for day in [0, 1, 10, 20, 256, 21_000, u16::MAX] {
        let ours = running.accepted(day).map_or(Verdict::Open, |clause| Verdict::Accepted(clause.number()));
        assert_eq!(ours, check_form(Form::New, day, file).verdict, "{name} on day {day}");
    }
    // A conversion may be too long for the old form.
    let Ok(old) = to_old(file) else { return };
    let text = String::from_utf8(readout(0, &old)).expect("text");
    for (number, line) in (0..).zip(text.lines().skip(1)) {
        let clause = running.existing_clause(number).expect(name);
        let literals = running.literals(clause).expect(name);
        let texts: Vec<String> = literals.iter().map(|literal| running.text(literal)).collect();
        assert_eq!(texts.join(" "), line.splitn(3, ' ').nth(2).unwrap_or(""), "{name}, clause {number}");
    }
}

#[test]
fn named_files() {
    for Formed { name, file, .. } in examples().into_iter().filter(|file| file.form == Form::New) {
        same(&name, &file);
    }
}

#[test]
fn random_files() {
    let (mut read, mut refused) = (0, 0);
    for seed in 0..1200 {
        for Formed { name, file, .. } in [random_form(Form::New, seed), damaged_form(Form::New, seed)] {
            match same(&name, &file) {
                Verdict::Refused { .. } => refused += 1,
                _ => read += 1,
            }
        }
    }
    assert!(read > 800 && refused > 800, "{read} read, {refused} refused");
}

/// Going on from a file: days are written over, and what is new comes after it.
#[test]
fn going_on_from_a_file() -> Result<(), BuildError> {
    let start = written(Form::New)?;
    let mut running = RunningBuilder::from_bytes_form(Form::New, &start).expect("it stands");
    let (yes, no) = (running.existing_clause(0)?, running.existing_clause(1)?);
    assert_eq!([255, 256, 512, 513].map(|day| running.accepted(day).is_some()), [false, true, true, false]);
    running.in_force(yes, 400..=600)?;
    assert_eq!([399, 400, 513, 514].map(|day| running.accepted(day).is_some()), [false, true, true, false]);
    running.in_force(no, 0..=u16::MAX)?;
    running.resolve(yes.literal(1), no.literal(1))?;
    let file = running.finish();
    assert_eq!(file.len(), start.len() + 20);
    let verdicts = [399, 400, 600, 601].map(|day| check_form(Form::New, day, &file).verdict.to_string());
    assert_eq!(verdicts, ["open", "accepted 2", "accepted 2", "open"]);
    // Only the days of the two clauses differ from what was there.
    let differs: Vec<usize> =
        (0..start.len()).filter(|&at| start[at] != file[at]).map(|at| at / 20).collect();
    assert!(differs.iter().all(|record| [2, 3].contains(record)), "{differs:?}");
    Ok(())
}

#[test]
fn a_full_file() -> Result<(), BuildError> {
    let mut file = FileBuilder::with_form(Form::New);
    let p = file.symbol(0)?;
    let atom = file.constant(p)?;
    let clause = file.clause(&[pos(atom)])?;
    for _ in 3..NEW_RECORDS {
        file.symbol(6)?;
    }
    assert_eq!(file.symbol(0), Err(BuildError::Full));
    assert_eq!(file.clause(&[pos(atom)]), Err(BuildError::Full));
    // Days take no room.
    file.in_force(clause, 3..=4)?;
    let bytes = file.finish();
    assert_eq!(bytes.len(), NEW_FILE_BYTES);
    let read = FileBuilder::from_bytes_form(Form::New, &bytes);
    assert!(read.is_ok_and(|file| file.bytes() == bytes));
    let long = [bytes.as_slice(), &[1; 20]].concat();
    let error = FileBuilder::from_bytes_form(Form::New, &long).err();
    assert_eq!(error, Some(ReadError::NewLength(65_540)));
    let text = "a file of 65540 bytes, over 65520 or not a multiple of 20";
    assert_eq!(error.map(|error| error.to_string()).as_deref(), Some(text));
    Ok(())
}
