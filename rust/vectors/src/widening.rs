//! Files of the new form, made of files of the old one, whether they stand or not; and random files of both forms.

use std::collections::HashMap;

use yestrwyn_types::limits::{NEW_RECORDS, NEW_RECORD_BYTES, RECORDS, RECORD_BYTES};
use yestrwyn_types::record::{kind, Record};
use yestrwyn_types::Dated;

use crate::dated::{dated_file, with_windows};
use crate::random::{random_file, SplitMix64};
use crate::sketch::Sketch;

/// A file of the old form in the new one, record by record and untested: records of kind 8 are left out, and the last of them for
/// an input clause gives it its days. Bytes after the last whole record stay.
pub fn widened(file: &[u8]) -> Vec<u8> {
    let records = file.chunks_exact(RECORD_BYTES);
    let rest = records.remainder().to_vec();
    let records: Vec<Record> =
        records.filter_map(|bytes| bytes.try_into().ok()).map(Record::from_bytes).collect();
    let windows = records.iter().filter(|record| record.kind == kind::WINDOW);
    let days: HashMap<u16, [u16; 2]> =
        windows.map(|record| (record.fields[0], [record.fields[1], record.fields[2]])).collect();
    let mut clause = 0;
    let mut bytes = Vec::new();
    for record in records.into_iter().filter(|record| record.kind != kind::WINDOW) {
        let mut dated = Dated::old(record);
        if let (kind::INPUT, Some(&days)) = (record.kind, days.get(&clause)) {
            dated.days = days;
        }
        clause += u16::from((kind::INPUT..=kind::RESOLVE_SEVERAL).contains(&record.kind));
        bytes.extend_from_slice(&dated.to_bytes());
    }
    [bytes, rest].concat()
}

/// Puts other days beside a record of a file of the new form.
pub fn put_days(file: &mut [u8], record: usize, [first, last]: [u16; 2]) {
    let found = file.chunks_exact_mut(NEW_RECORD_BYTES).nth(record);
    if let Some(beside) = found.map(|record| &mut record[RECORD_BYTES..]) {
        beside[..2].copy_from_slice(&first.to_le_bytes());
        beside[2..].copy_from_slice(&last.to_le_bytes());
    }
}

/// A day, and a random file of the new form with days near it. Seldom something is wrong with what stands beside a record, or a
/// record of kind 8 is put in; and seldom there are as many dated clauses as the old form can take, or one more.
pub fn new_file(seed: u64) -> (u16, Vec<u8>) {
    let mut random = SplitMix64::new(seed ^ 0x20b7_7e50_0000_0000);
    let (day, old) = dated_file(random.next_u64());
    let mut file = widened(&old);
    match random.below(24) {
        0..=2 => file = spoiled(&file, &mut random),
        3 => file = filled_new(&mut random),
        4 => file = widened(&random_file(random.next_u64())),
        _ => {}
    }
    (day, file)
}

/// A day, and a random file of the old form to be converted: with windows near the day, more of them than other files have; seldom
/// with about as many records as the new form can take.
pub fn converting_file(seed: u64) -> (u16, Vec<u8>) {
    let mut random = SplitMix64::new(seed ^ 0xc07e_2700_0000_0000);
    let (day, mut file) = dated_file(random.next_u64());
    for _ in 0..random.below(3) {
        file = with_windows(&file, day, random.next_u64());
    }
    if random.one_in(16) {
        file.extend_from_slice(&filled_old(&mut random, &file));
    }
    (day, file)
}

/// A file of the new form with something wrong beside a record: a day of a record that has none, crossed days, or kind 8.
fn spoiled(file: &[u8], random: &mut SplitMix64) -> Vec<u8> {
    let record = random.below(file.len() / NEW_RECORD_BYTES);
    let days = [0; 2].map(|_| random.below(3) as u16 * [1, 255, 256][random.below(3)]);
    let mut bytes = file.to_vec();
    put_days(&mut bytes, record, days);
    if random.one_in(4) {
        let window = Dated::old(Record::new(kind::WINDOW, 0, &[0, days[0], days[1]]));
        let at = (record * NEW_RECORD_BYTES).min(bytes.len());
        bytes.splice(at..at, window.to_bytes());
    }
    bytes
}

/// A file of the new form of many equal clauses, of which as many have days as the old form can take with all the others, or one
/// more or fewer.
fn filled_new(random: &mut SplitMix64) -> Vec<u8> {
    let mut file = Sketch::new();
    let symbol = file.symbol(0);
    let atom = file.application(symbol, &[]);
    let records = random.between(RECORDS / 2 + 1, NEW_RECORDS);
    for _ in 2..records {
        file.clause_of_rows(&[(true, atom)]);
    }
    let dated = RECORDS - records + random.below(3) - 1;
    // Which of them have days does not matter.
    let first = 2 + random.below(records - 2 - dated.min(records - 2) + 1);
    let mut bytes = widened(file.bytes());
    for record in first..first + dated {
        put_days(&mut bytes, record, [3, 4]);
    }
    bytes
}

/// Records of the old form behind a file, so that about as many are not of kind 8 as the new form can take; then some that are.
fn filled_old(random: &mut SplitMix64, file: &[u8]) -> Vec<u8> {
    let held = file.chunks(RECORD_BYTES).filter(|record| record[0] != kind::WINDOW).count();
    let records = (NEW_RECORDS + random.below(3)).saturating_sub(1 + held);
    let mut behind = Sketch::new();
    for _ in 0..records {
        behind.symbol(random.below(7) as u8);
    }
    // Windows for clause 0, if there is one, as many as have room: the first clause of a file is an input clause.
    let has_clause = file.chunks(RECORD_BYTES).any(|record| record[0] == kind::INPUT);
    let room = RECORDS.saturating_sub(file.len() / RECORD_BYTES + records);
    for _ in 0..if has_clause { random.below(room + 1) } else { 0 } {
        behind.window(0, 5, 6);
    }
    behind.finish()
}
