//! Two files merged into one, an operator's rulebook and the facts of a trip: the records of the first as they are, then
//! those of the second with the numbers of rows and clauses raised by what the first has of them.

use yestrwyn_types::limits::{FILE_BYTES, RECORDS, RECORD_BYTES};
use yestrwyn_types::record::{kind, read, Record};
use yestrwyn_types::{Cells, Form, MergeRefusal, Merged, Reason, Tables, Verdict};

use crate::check::check_tables;
use crate::checker::Checker;
use crate::clause::Origin;

/// Merges two files: the bytes of the merged one, or why they are not merged.
pub fn merge(first: &[u8], second: &[u8]) -> Result<Vec<u8>, MergeRefusal> {
    let mut output = vec![0; FILE_BYTES];
    let length = merged(first, second, &mut Cells::new().lend(), &mut output)?;
    output.truncate(length);
    Ok(output)
}

/// The same into an output that is lent, of 65,536 bytes at least, with tables that are lent and left as the last check
/// leaves them. Past the merged file the output is left alone, and all of it with a refusal. If it is too short, so are
/// the tables.
pub fn merge_into(first: &[u8], second: &[u8], tables: &mut Tables<'_>, output: &mut [u8]) -> Merged {
    match merged(first, second, tables, output) {
        Ok(length) => Merged::Written { length: u32::try_from(length).unwrap_or(u32::MAX) },
        Err(refusal) => Merged::Refused(refusal),
    }
}

/// The merge, with the length of the file that it has written.
fn merged(
    first: &[u8],
    second: &[u8],
    tables: &mut Tables<'_>,
    output: &mut [u8],
) -> Result<usize, MergeRefusal> {
    if output.len() < FILE_BYTES {
        return Err(MergeRefusal::of_neither(Reason::Table));
    }
    let one = standing(first, 1, tables)?;
    let other = standing(second, 2, tables)?;
    holds_no_step(&one, 1)?;
    holds_no_step(&other, 2)?;
    begin_alike(&one, &other)?;
    let common = one.symbols().len().min(other.symbols().len());
    let length = first.len() + second.len() - common * RECORD_BYTES;
    if length > RECORDS * RECORD_BYTES {
        return Err(MergeRefusal::of_neither(Reason::MergedLength));
    }
    let (start, rest) = output[..length].split_at_mut(first.len());
    start.copy_from_slice(first);
    Raise::past(&one).write(second, rest);
    Ok(length)
}

/// What stands of a file, all of which must.
fn standing(bytes: &[u8], file: u16, tables: &mut Tables<'_>) -> Result<Checker, MergeRefusal> {
    // Whether a file stands does not depend on the day, so any will do.
    let (answer, checker) = check_tables(Form::Old, 0, bytes, tables, &mut Vec::new());
    match (answer.verdict, checker) {
        (Verdict::Refused { reason, record }, _) => Err(MergeRefusal { reason, file, record }),
        (_, checker) => Ok(checker.unwrap_or_default()),
    }
}

/// No clause of a file is derived; otherwise the first that is names its record.
fn holds_no_step(checker: &Checker, file: u16) -> Result<(), MergeRefusal> {
    let step = checker.clauses().iter().find(|clause| !matches!(clause.origin, Origin::Input(_)));
    let refusal = |record| Err(MergeRefusal { reason: Reason::MergedStep, file, record });
    step.map_or(Ok(()), |step| refusal(step.record))
}

/// The symbols that both have are the same; otherwise the second's first that differs names its record.
fn begin_alike(one: &Checker, other: &Checker) -> Result<(), MergeRefusal> {
    let mut common = one.symbols().iter().zip(other.symbols());
    let differs = common.find(|(symbol, same)| symbol.arity != same.arity);
    let refusal = |record| Err(MergeRefusal { reason: Reason::MergedSymbols, file: 2, record });
    differs.map_or(Ok(()), |(_, symbol)| refusal(symbol.record))
}

/// By how much the numbers of a second file are raised: what the first has. Symbols keep their numbers.
struct Raise {
    /// Symbols below this number are the first file's.
    symbols: usize,
    rows: u16,
    clauses: u16,
}

impl Raise {
    /// Past everything that a file has.
    fn past(checker: &Checker) -> Raise {
        // No file has more rows or clauses than records.
        let [rows, clauses] =
            [checker.nodes().len(), checker.clauses().len()].map(|count| count.min(RECORDS) as u16);
        Raise { symbols: checker.symbols().len(), rows, clauses }
    }

    /// Writes the records of a second file, without the symbols that the first has.
    fn write(&self, second: &[u8], output: &mut [u8]) {
        let mut symbols = 0;
        let kept = (0..).map_while(|number| read(second, number)).filter(|record| {
            symbols += usize::from(record.kind == kind::SYMBOL);
            record.kind != kind::SYMBOL || symbols > self.symbols
        });
        for (place, record) in output.chunks_exact_mut(RECORD_BYTES).zip(kept) {
            place.copy_from_slice(&self.raised(record).to_bytes());
        }
    }

    /// A record of the second file as the merged file has it. Fields that it does not use stay zero.
    fn raised(&self, mut record: Record) -> Record {
        let count = usize::from(record.count);
        let (named, by) = match record.kind {
            kind::APPLICATION => (1..1 + count, self.rows),
            kind::INPUT => (0..count, 2 * self.rows),
            kind::WINDOW => (0..1, self.clauses),
            _ => (0..0, 0),
        };
        for field in record.fields.iter_mut().take(named.end).skip(named.start) {
            *field = field.wrapping_add(by);
        }
        record
    }
}
