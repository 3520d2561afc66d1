//! A file of one form written in the other. To the new form, records of kind 8 fall away and every clause takes the days that
//! supersede; to the old one, each clause that is not always in force is followed by a record of kind 8.

use yestrwyn_types::limits::{FILE_BYTES, NEW_RECORD_BYTES, RECORD_BYTES};
use yestrwyn_types::record::{kind, Record};
use yestrwyn_types::{Cells, ConversionRefusal, Converted, Dated, Form, Reason, Tables, Verdict};

use crate::check::check_tables;
use crate::checker::Checker;
use crate::days::Window;

/// A file of the old form in the new one, or why it is not converted.
pub fn to_new(file: &[u8]) -> Result<Vec<u8>, ConversionRefusal> {
    owned(Form::Old, file)
}

/// A file of the new form in the old one, or why it is not converted.
pub fn to_old(file: &[u8]) -> Result<Vec<u8>, ConversionRefusal> {
    owned(Form::New, file)
}

/// To the new form, into an output that is lent, of 65,536 bytes at least, with tables that are lent and left as the check of the
/// file leaves them. Past the converted file the output is left alone, and all of it with a refusal. If it is too short, so are
/// the tables.
pub fn to_new_into(file: &[u8], tables: &mut Tables<'_>, output: &mut [u8]) -> Converted {
    lent(Form::Old, file, tables, output)
}

/// The same to the old form.
pub fn to_old_into(file: &[u8], tables: &mut Tables<'_>, output: &mut [u8]) -> Converted {
    lent(Form::New, file, tables, output)
}

/// A file of a form in the other, in bytes of its own.
fn owned(form: Form, file: &[u8]) -> Result<Vec<u8>, ConversionRefusal> {
    let mut output = vec![0; FILE_BYTES];
    let length = converted(form, file, &mut Cells::new().lend(), &mut output)?;
    output.truncate(length);
    Ok(output)
}

/// The same in an output that is lent.
fn lent(form: Form, file: &[u8], tables: &mut Tables<'_>, output: &mut [u8]) -> Converted {
    match converted(form, file, tables, output) {
        Ok(length) => Converted::Written { length: u32::try_from(length).unwrap_or(u32::MAX) },
        Err(refusal) => Converted::Refused(refusal),
    }
}

/// The conversion of a file of a form, with the length of the file that it has written.
fn converted(
    form: Form,
    file: &[u8],
    tables: &mut Tables<'_>,
    output: &mut [u8],
) -> Result<usize, ConversionRefusal> {
    if output.len() < FILE_BYTES {
        return Err(ConversionRefusal::of_the_result(Reason::Table));
    }
    let checker = standing(form, file, tables)?;
    let records = (0..).map_while(|number| form.read(file, number));
    let length = match form {
        Form::Old => records.clone().filter(|dated| !is_window(dated)).count() * NEW_RECORD_BYTES,
        Form::New => (records.clone().count() + records.clone().filter(has_days).count()) * RECORD_BYTES,
    };
    if !form.other().fits(length) {
        return Err(ConversionRefusal::of_the_result(Reason::ConvertedLength));
    }
    match form {
        Form::Old => write_new(records, checker.windows(), output),
        Form::New => write_old(records, output),
    }
    Ok(length)
}

/// What stands of a file, all of which must.
fn standing(form: Form, file: &[u8], tables: &mut Tables<'_>) -> Result<Checker, ConversionRefusal> {
    // Whether a file stands does not depend on the day, so any will do.
    let (answer, checker) = check_tables(form, 0, file, tables, &mut Vec::new());
    match (answer.verdict, checker) {
        (Verdict::Refused { reason, record }, _) => Err(ConversionRefusal::of_the_file(reason, record)),
        (_, checker) => Ok(checker.unwrap_or_default()),
    }
}

/// Is this a record of kind 8?
fn is_window(dated: &Dated) -> bool {
    dated.record.kind == kind::WINDOW
}

/// Is this an input clause that is not always in force, as far as its own record says?
fn has_days(dated: &Dated) -> bool {
    dated.record.kind == kind::INPUT && dated.days != Dated::ALWAYS
}

/// Does this record make a clause, which then has the next number?
fn is_clause(record: &Record) -> bool {
    matches!(record.kind, kind::INPUT | kind::RESOLVE | kind::FACTOR | kind::RESOLVE_SEVERAL)
}

/// Writes records in the new form, those of kind 8 left out. There is a window for each clause, derived ones too.
fn write_new(records: impl Iterator<Item = Dated>, windows: &[Window], output: &mut [u8]) {
    let mut windows = windows.iter();
    let kept = records.filter(|dated| !is_window(dated));
    for (place, mut dated) in output.chunks_exact_mut(NEW_RECORD_BYTES).zip(kept) {
        let window = if is_clause(&dated.record) { windows.next() } else { None };
        if let (kind::INPUT, Some(window)) = (dated.record.kind, window) {
            dated.days = [window.first, window.last];
        }
        place.copy_from_slice(&dated.to_bytes());
    }
}

/// Writes records in the old form, each clause that is not always in force with its days straight after it.
fn write_old(records: impl Iterator<Item = Dated>, output: &mut [u8]) {
    let mut places = output.chunks_exact_mut(RECORD_BYTES);
    let mut write = |record: Record| {
        if let Some(place) = places.next() {
            place.copy_from_slice(&record.to_bytes());
        }
    };
    let mut clause = 0;
    for dated in records {
        write(dated.record);
        if has_days(&dated) {
            let [first, last] = dated.days;
            write(Record::new(kind::WINDOW, 0, &[clause, first, last]));
        }
        clause += u16::from(is_clause(&dated.record));
    }
}
