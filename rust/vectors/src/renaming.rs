//! One file as another planner writes it: variables under other numbers, rows in another order. The literals of each clause
//! stay what they are up to a one-to-one renaming of variables.

use yestrwyn_types::limits::{RECORD_BYTES, VARIABLES};
use yestrwyn_types::record::{kind, Record};

use crate::random::SplitMix64;

/// The numbers of all variables exchanged one to one, and nothing else. A number out of its range stays as it is.
pub fn other_numbers(file: &[u8], seed: u64) -> Vec<u8> {
    let numbers = shuffled(VARIABLES, &mut SplitMix64::new(seed));
    let mut bytes = file.to_vec();
    for part in bytes.chunks_exact_mut(RECORD_BYTES) {
        let (mut record, own) = (record_of(part), &mut *part);
        if let (kind::VARIABLE, Some(&number)) = (record.kind, numbers.get(usize::from(record.fields[0]))) {
            record.fields[0] = number as u16;
            own.copy_from_slice(&record.to_bytes());
        }
    }
    bytes
}

/// A file that stands with its symbols first, then its rows in any order in which arguments come first, then the rest.
pub fn other_order(file: &[u8], seed: u64) -> Vec<u8> {
    let records: Vec<Record> = file.chunks_exact(RECORD_BYTES).map(record_of).collect();
    let is_row = |record: &&Record| matches!(record.kind, kind::VARIABLE | kind::APPLICATION);
    let rows: Vec<Record> = records.iter().filter(is_row).copied().collect();
    let order = order_of(&rows, &mut SplitMix64::new(seed));
    let mut numbers = vec![0; rows.len()];
    for (number, &row) in (0..).zip(&order) {
        numbers[row] = number;
    }
    let symbols = records.iter().filter(|record| record.kind == kind::SYMBOL).copied();
    let rows = order.iter().map(|&row| with_numbers(rows[row], &numbers));
    let rest = records.iter().filter(|record| record.kind >= kind::INPUT);
    let rest = rest.map(|record| with_numbers(*record, &numbers));
    symbols.chain(rows).chain(rest).flat_map(|record| record.to_bytes()).collect()
}

/// The record of sixteen bytes.
fn record_of(part: &[u8]) -> Record {
    Record::from_bytes(part.try_into().expect("sixteen bytes"))
}

/// The numbers below a bound in any order.
fn shuffled(bound: usize, random: &mut SplitMix64) -> Vec<usize> {
    let mut all: Vec<usize> = (0..bound).collect();
    for place in (1..bound).rev() {
        all.swap(place, random.below(place + 1));
    }
    all
}

/// The argument rows of a row.
fn arguments(row: &Record) -> impl Iterator<Item = usize> + '_ {
    let count = if row.kind == kind::APPLICATION { usize::from(row.count) } else { 0 };
    row.fields.iter().skip(1).take(count).map(|&argument| usize::from(argument))
}

/// The rows in any order in which each comes after its arguments.
fn order_of(rows: &[Record], random: &mut SplitMix64) -> Vec<usize> {
    let (mut order, mut placed) = (Vec::new(), vec![false; rows.len()]);
    let mut stack = shuffled(rows.len(), random);
    while let Some(&row) = stack.last() {
        match arguments(&rows[row]).find(|&argument| !placed[argument]) {
            Some(argument) if !placed[row] => stack.push(argument),
            _ => {
                stack.pop();
                if !placed[row] {
                    placed[row] = true;
                    order.push(row);
                }
            }
        }
    }
    order
}

/// A row or an input clause with the new numbers of the rows that it names; other records as they are.
fn with_numbers(mut record: Record, numbers: &[u16]) -> Record {
    let count = usize::from(record.count);
    match record.kind {
        kind::APPLICATION => {
            let named = record.fields.iter_mut().skip(1).take(count);
            named.for_each(|row| *row = numbers[usize::from(*row)]);
        }
        kind::INPUT => {
            let named = record.fields.iter_mut().take(count);
            named.for_each(|code| *code = 2 * numbers[usize::from(*code / 2)] + *code % 2);
        }
        _ => {}
    }
    record
}
