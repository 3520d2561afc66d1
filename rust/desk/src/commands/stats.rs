//! `yestrwyn stats`: what a file has of everything that is limited.

use std::collections::HashSet;
use std::fmt::Write;

use yestrwyn::limits::{
    ARITY, BINDINGS, INDEX, INPUT_LITERALS, LITERALS, RECORDS, RIGHT_LITERALS, VARIABLES, WORK,
};
use yestrwyn::record::{kind, Record};
use yestrwyn::{Form, Verdict};
use yestrwyn_derivations::{step_works, Model, Origin};

use super::check::in_words;
use super::Command;
use crate::arguments::{Arguments, Takes};
use crate::checking::CheckedFile;
use crate::failure::Failure;
use crate::input::Source;
use crate::output::Output;
use crate::status::Status;

pub const COMMAND: Command = Command {
    name: "stats",
    synopsis: "FILE",
    summary: "Records, work, bindings, literals and index, against each limit.",
    text: "\
The records by kind, and the most that the file has of what the format limits, with the limit and the
record or clause that has it. Of a refused file it is what stands before the record that is refused, with
the work of that record if it is a step that was unified.
",
    proved: "that the file stands or is refused, the counts of symbols, rows, clauses and bindings, and the literals\n\
             and maximum index of each clause.",
    not_proved: "the records by kind and the work of steps, which is counted here once more.",
    statuses: "0 the file stands, 2 it is refused, 3 not read or written.",
    takes: Takes { flags: &[], values: &[] },
    run,
};

/// The kinds of record, by what they are called here.
const KINDS: [(u8, &str); 8] = [
    (kind::SYMBOL, "symbols"),
    (kind::VARIABLE, "rows that are variables"),
    (kind::APPLICATION, "rows that are applications"),
    (kind::INPUT, "input clauses"),
    (kind::RESOLVE, "steps that resolve one literal"),
    (kind::RESOLVE_SEVERAL, "steps that resolve several"),
    (kind::FACTOR, "steps that factor"),
    (kind::WINDOW, "records of days"),
];

fn run(arguments: &Arguments, output: &mut Output) -> Result<Status, Failure> {
    let source = Source::of(arguments.one("one file")?);
    // Days play no part in what is counted.
    let file = CheckedFile::read(source, Some(0))?;
    let model = file.model()?;
    let verdict = file.answer.verdict;
    let refused = matches!(verdict, Verdict::Refused { .. });
    let stands = if refused { in_words(verdict) } else { "stands".to_string() };
    output.print(format!("{}: {stands}\n{}", file.source, table(&file, &model)))?;
    Ok(if refused { Status::Refused } else { Status::Accepted })
}

/// A line of the table.
struct Line {
    what: &'static str,
    here: usize,
    most: Option<usize>,
    place: Option<String>,
}

impl Line {
    /// A count without a limit.
    fn count(what: &'static str, here: usize) -> Line {
        Line { what, here, most: None, place: None }
    }

    /// What there is the most of, and where; nothing is zero.
    fn most(what: &'static str, most: impl Into<usize>, found: Option<(usize, String)>) -> Line {
        let (here, place) = found.map_or((0, None), |(here, place)| (here, Some(place)));
        Line { what, here, most: Some(most.into()), place }
    }

    /// A count with its limit.
    fn limited(what: &'static str, here: usize, most: usize) -> Line {
        Line { what, here, most: Some(most), place: None }
    }
}

/// The table of a file.
fn table(file: &CheckedFile, model: &Model<'_>) -> String {
    let records = standing(file);
    let mut lines = vec![Line::limited("records", records.len(), RECORDS)];
    for (kind, what) in KINDS {
        lines.push(Line::count(what, records.iter().filter(|record| record.kind == kind).count()));
    }
    let rows = &file.cells.rows[..usize::from(file.answer.rows)];
    let distinct: HashSet<&u16> = rows.iter().collect();
    lines.push(Line::count("rows that repeat earlier ones", rows.len() - distinct.len()));
    lines.extend(of_records(&records));
    lines.extend(of_clauses(model));
    lines.extend(of_steps(model));
    lines.push(Line::limited("bindings", file.answer.bindings.into(), BINDINGS));
    text(&lines)
}

/// The records that stand.
fn standing(file: &CheckedFile) -> Vec<Record> {
    let records = (0..).map_while(|number| Form::Old.read(&file.bytes, number).map(|dated| dated.record));
    match file.answer.verdict {
        Verdict::Refused { record, .. } => records.take(record.into()).collect(),
        Verdict::Accepted(_) | Verdict::Open => records.collect(),
    }
}

/// What records have the most of by their own bytes.
fn of_records(records: &[Record]) -> Vec<Line> {
    let most = |kind: u8, number: fn(&Record) -> usize| {
        let these = records.iter().enumerate().filter(move |(_, record)| record.kind == kind);
        first_most(these.map(|(place, record)| (number(record), format!("record {place}"))))
    };
    let count: fn(&Record) -> usize = |record| record.count.into();
    vec![
        Line::most("arity of a symbol", ARITY, most(kind::SYMBOL, count)),
        Line::most("variable number", VARIABLES - 1, most(kind::VARIABLE, |record| record.fields[0].into())),
        Line::most("literals of an input clause", INPUT_LITERALS, most(kind::INPUT, count)),
        Line::most("right literals of a step", RIGHT_LITERALS, most(kind::RESOLVE_SEVERAL, count)),
    ]
}

/// What clauses have the most of.
fn of_clauses(model: &Model<'_>) -> Vec<Line> {
    let named = |number: usize, here: usize| (here, format!("clause {number}"));
    let clauses = || model.clauses().iter().enumerate();
    let derived = clauses().filter(|(_, clause)| clause.origin != Origin::Input);
    let literals = first_most(derived.map(|(number, clause)| named(number, clause.literals.len())));
    let index = first_most(clauses().map(|(number, clause)| named(number, clause.max_index.into())));
    vec![
        Line::most("literals of a derived clause", LITERALS, literals),
        Line::most("maximum index of a clause", INDEX, index),
    ]
}

/// The most work of a step, and that of all.
fn of_steps(model: &Model<'_>) -> Vec<Line> {
    let works = step_works(model);
    let most = first_most(works.iter().map(|step| (step.work as usize, format!("record {}", step.record))));
    let all = works.iter().map(|step| step.work as usize).sum();
    vec![Line::most("work of a step", WORK as usize, most), Line::count("work of all steps", all)]
}

/// The first of those that have the most.
fn first_most(all: impl Iterator<Item = (usize, String)>) -> Option<(usize, String)> {
    all.reduce(|most, other| if other.0 > most.0 { other } else { most })
}

/// The table as text.
fn text(lines: &[Line]) -> String {
    let mut text = String::new();
    for Line { what, here, most, place } in lines {
        let _ = write!(text, "{what:<32}{here:>8}");
        if let Some(most) = most {
            let _ = write!(text, " of {most:>5}");
        }
        if let Some(place) = place {
            let _ = write!(text, "  {place}");
        }
        text.push('\n');
    }
    text
}
