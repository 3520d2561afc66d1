//! Files of either form as long as one can be and longer, and files whose conversion just fits or just does not.

use yestrwyn_types::limits::{NEW_RECORDS, NEW_RECORD_BYTES, RECORDS};
use yestrwyn_types::Form;

use super::Formed;
use crate::sketch::Sketch;
use crate::widening::{put_days, widened};

/// All of them.
pub fn examples() -> Vec<Formed> {
    let mut all = lengths();
    all.extend(to_new());
    all.extend(to_old());
    all
}

/// So many symbols.
pub fn many_symbols(count: usize) -> Sketch {
    let mut file = Sketch::new();
    for _ in 0..count {
        file.symbol(3);
    }
    file
}

/// A symbol, its row, and clauses of that row up to so many records, the last so many of them with days; in the new form.
pub fn many_clauses(records: usize, dated: usize) -> Vec<u8> {
    let mut file = Sketch::new();
    let symbol = file.symbol(0);
    let atom = file.application(symbol, &[]);
    for place in 2..records {
        file.clause_of_rows(&[(place % 2 == 0, atom)]);
    }
    let mut bytes = widened(file.bytes());
    for record in records - dated..records {
        put_days(&mut bytes, record, [record as u16, 40_000]);
    }
    bytes
}

/// Lengths of the new form: whole records, and bytes too many or too few.
fn lengths() -> Vec<Formed> {
    let symbols = widened(many_symbols(NEW_RECORDS + 1).bytes());
    let cut = |bytes: usize| {
        // What fits is a file of the new form that stands.
        let word = if Form::New.fits(bytes) { "stands" } else { "1" };
        Formed::new(Form::New, &format!("{word}-{bytes}-bytes"), symbols[..bytes].to_vec())
    };
    let most = NEW_RECORDS * NEW_RECORD_BYTES;
    [0, 1, 16, 19, 20, 21, 39, 40, 80, most - 20, most - 1, most, most + 1, most + 16, most + 20]
        .map(cut)
        .to_vec()
}

/// To the new form: 3,276 records that are left, and one more.
fn to_new() -> Vec<Formed> {
    let symbols = |count: usize| {
        let word = if count > NEW_RECORDS { "22-" } else { "" };
        Formed::new(Form::Old, &format!("{word}to-new-{count}-records"), many_symbols(count).finish())
    };
    vec![
        symbols(NEW_RECORDS - 1),
        symbols(NEW_RECORDS),
        symbols(NEW_RECORDS + 1),
        symbols(RECORDS),
        with_windows(NEW_RECORDS, RECORDS - NEW_RECORDS),
        with_windows(NEW_RECORDS + 1, RECORDS - NEW_RECORDS - 1),
        with_windows(NEW_RECORDS, 1),
        with_windows(NEW_RECORDS + 1, 1),
        with_windows(3, RECORDS - 3),
        with_windows(3, RECORDS - 2),
    ]
}

/// A file of the old form with one clause, so many windows for it, and so many other records.
fn with_windows(others: usize, windows: usize) -> Formed {
    let mut file = Sketch::new();
    let symbol = file.symbol(0);
    let atom = file.application(symbol, &[]);
    let clause = file.clause_of_rows(&[(true, atom)]);
    for day in 0..windows as u16 {
        file.window(clause, day, day + 300);
    }
    for _ in 3..others {
        file.symbol(6);
    }
    let word = match others {
        _ if others + windows > RECORDS => "1-",
        _ if others > NEW_RECORDS => "22-",
        _ => "",
    };
    let name = format!("{word}to-new-{others}-records-and-{windows}-of-days");
    Formed::new(Form::Old, &name, file.finish())
}

/// To the old form: 4,096 records with those of days, and one more.
fn to_old() -> Vec<Formed> {
    let clauses = |records: usize, dated: usize| {
        let word = if records + dated > RECORDS { "22-" } else { "" };
        let name = format!("{word}to-old-{records}-records-of-which-{dated}-have-days");
        Formed::new(Form::New, &name, many_clauses(records, dated))
    };
    let half = RECORDS / 2;
    vec![
        clauses(NEW_RECORDS, 0),
        clauses(NEW_RECORDS, RECORDS - NEW_RECORDS - 1),
        clauses(NEW_RECORDS, RECORDS - NEW_RECORDS),
        clauses(NEW_RECORDS, RECORDS - NEW_RECORDS + 1),
        clauses(half + 1, half - 1),
        clauses(half + 2, half - 1),
        clauses(half + 2, half),
        clauses(NEW_RECORDS, NEW_RECORDS - 2),
    ]
}
