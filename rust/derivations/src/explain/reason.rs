//! What is wrong with a record, in sentences.

use yestrwyn_types::limits::VARIABLES;
use yestrwyn_types::Form;

use super::record::LETTERS;
use super::step::Step;
use crate::fault::{Fault, Missing};
use crate::model::Model;
use crate::names::Names;
use crate::text::Printer;
use crate::wording::{counted, day_of, grouped};

/// The fault of a record in sentences.
pub fn sentences(model: &Model<'_>, names: &Names, record: u16, fault: &Fault) -> Vec<String> {
    match fault {
        Fault::Length(length) => vec![bad_length(model.form(), *length)],
        Fault::Table => vec!["The file was not looked at.".to_string()],
        Fault::Kind(kind) => vec![format!("Byte 0 is {kind}, and kinds are 1 to {}.", last_kind(model.form()))],
        Fault::Count { found, least, most } if least == most => {
            vec![format!("Byte 1 is {found}, and must be {least}.")]
        }
        Fault::Count { found, least, most } => vec![format!("Byte 1 is {found}, and must be {least} to {most}.")],
        Fault::Variable(number) => {
            vec![format!("There is no variable {number}: they have the numbers 0 to {}.", VARIABLES - 1)]
        }
        Fault::Unused { field, value } => {
            vec![format!("Field {} is not used here, and is {value} where it must be 0.", LETTERS[*field])]
        }
        Fault::DaysBeside([first, last]) => {
            vec![format!("Days stand beside it, {first} and {last}, and only an input clause has days.")]
        }
        Fault::Missing(what) => vec![missing(model, names, *what)],
        Fault::VariableLiteral { field, row } => vec![format!(
            "The literal of field {} is on row {row}, which is the variable {}: a variable alone is neither true nor false.",
            LETTERS[*field],
            Printer::new(model, names).row(*row),
        )],
        Fault::Crossed([first, last]) => {
            vec![format!("The first day is {}, after the last, {}.", day_of(*first), day_of(*last))]
        }
        Fault::Itself(literal) => {
            vec![format!("Literal {literal} is named twice: a factoring step takes two different literals.")]
        }
        _ => Step::of(model, names, record).map_or_else(Vec::new, |mut step| step.sentences(fault)),
    }
}

/// The last kind of a form.
fn last_kind(form: Form) -> u8 {
    match form {
        Form::Old => 8,
        Form::New => 7,
    }
}

/// A length that no file has. Of a file that is too long, no more need have been read than tells that.
fn bad_length(form: Form, length: usize) -> String {
    let (most, bytes) = (form.file_bytes(), form.record_bytes());
    match length > most {
        true => format!("The file has over {} bytes.", grouped(most)),
        false => format!(
            "The file has {}, which is {} and {} of another: records have {bytes} bytes.",
            counted(length, "byte"),
            counted(length / bytes, "record"),
            counted(length % bytes, "byte"),
        ),
    }
}

/// What does not exist, or does not fit, and what there is.
fn missing(model: &Model<'_>, names: &Names, what: Missing) -> String {
    let there = |count: usize, what: &str| match count {
        0 => format!("no {what} stands before this record"),
        1 => format!("only {what} 0 stands before this record"),
        _ => format!("{what}s 0 to {} stand before this record", count - 1),
    };
    match what {
        Missing::Symbol(symbol) => {
            format!("There is no symbol {symbol}: {}.", there(model.symbols().len(), "symbol"))
        }
        Missing::Arity { symbol, takes, given } => format!(
            "The symbol {} takes {}, and byte 1 says {given}.",
            names.symbol(symbol),
            counted(takes.into(), "argument"),
        ),
        Missing::Row { field, row } => {
            format!("Field {} names row {row}: {}.", LETTERS[field], there(model.rows().len(), "row"))
        }
        Missing::Clause { field, clause } => {
            format!(
                "Field {} names clause {clause}: {}.",
                LETTERS[field],
                there(model.clauses().len(), "clause")
            )
        }
        Missing::Literal { field, clause, literal } => format!(
            "Field {} names literal {literal} of clause {clause}, which has {}, counted from 1.",
            LETTERS[field],
            counted(model.clause(clause).map_or(0, |clause| clause.literals.len()), "literal"),
        ),
        Missing::NotInput(clause) => {
            format!("Clause {clause} is made by a step, and days are given to input clauses.")
        }
    }
}
