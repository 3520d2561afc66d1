//! The tests of what a record names.

use yestrwyn_types::record::{kind, Record};

use super::{require, Fault, Missing};
use crate::model::{Model, Node};

/// Everything that is named exists, and fits.
pub fn test(model: &Model<'_>, record: &Record) -> Result<(), Fault> {
    let [a, b, c, ..] = record.fields;
    let count = usize::from(record.count);
    match record.kind {
        kind::APPLICATION => {
            symbol(model, a, record.count)?;
            (1..=count).try_for_each(|field| row(model, field, record.fields[field]))
        }
        kind::INPUT => (0..count).try_for_each(|field| row(model, field, record.fields[field] / 2)),
        kind::FACTOR => {
            clause(model, 0, a)?;
            literal(model, 1, a, b)?;
            literal(model, 2, a, c)
        }
        kind::RESOLVE | kind::RESOLVE_SEVERAL => {
            clause(model, 0, a)?;
            literal(model, 1, a, b)?;
            clause(model, 2, c)?;
            (3..3 + count.max(1)).try_for_each(|field| literal(model, field, c, record.fields[field]))
        }
        kind::WINDOW => {
            clause(model, 0, a)?;
            let input = model.clause(a).is_some_and(|clause| clause.is_input());
            missing(input, Missing::NotInput(a))
        }
        _ => Ok(()),
    }
}

/// No literal of an input clause is on a variable.
pub fn literals_on_variables(model: &Model<'_>, record: &Record) -> Result<(), Fault> {
    (0..usize::from(record.count)).try_for_each(|field| {
        let row = record.fields[field] / 2;
        let applied = matches!(model.node(row), Node::Application { .. });
        require(applied, || Fault::VariableLiteral { field, row })
    })
}

/// At fault with what is missing, unless it is there.
fn missing(there: bool, what: Missing) -> Result<(), Fault> {
    require(there, || Fault::Missing(what))
}

/// The symbol exists and takes so many arguments.
fn symbol(model: &Model<'_>, symbol: u16, given: u8) -> Result<(), Fault> {
    let Some(known) = model.symbols().get(usize::from(symbol)) else {
        return Err(Fault::Missing(Missing::Symbol(symbol)));
    };
    missing(known.arity == given, Missing::Arity { symbol, takes: known.arity, given })
}

/// The row of a field exists.
fn row(model: &Model<'_>, field: usize, row: u16) -> Result<(), Fault> {
    missing(usize::from(row) < model.rows().len(), Missing::Row { field, row })
}

/// The clause of a field exists.
fn clause(model: &Model<'_>, field: usize, clause: u16) -> Result<(), Fault> {
    missing(model.clause(clause).is_some(), Missing::Clause { field, clause })
}

/// The literal of a field exists in a clause.
fn literal(model: &Model<'_>, field: usize, clause: u16, literal: u16) -> Result<(), Fault> {
    missing(model.literal(clause, literal).is_some(), Missing::Literal { field, clause, literal })
}
