//! What is wrong with a refused record: the tests of the check, done again in the same order, with what each one met.

mod fields;
mod named;
mod step;

use yestrwyn_types::limits::{INDEX, LITERALS};
use yestrwyn_types::record::kind;
use yestrwyn_types::{Dated, Form, Reason, Verdict};

use crate::model::Model;
use crate::outlines::OutlineClash;
use crate::unification::Failure;
use crate::values::Values;

pub use fields::used as used_fields;

/// What is wrong with a refused file or record.
pub enum Fault {
    /// The file has this length.
    Length(usize),
    /// A table was too short, which is not the file's fault.
    Table,
    /// There is no such kind.
    Kind(u8),
    /// Byte 1 is not within these bounds.
    Count {
        /// Byte 1.
        found: u8,
        /// The least that it may be.
        least: u8,
        /// The most.
        most: u8,
    },
    /// There is no variable of this number.
    Variable(u16),
    /// A field that the kind does not use is not zero.
    Unused {
        /// The field, from 0.
        field: usize,
        /// What stands in it.
        value: u16,
    },
    /// Days stand beside a record that is no input clause.
    DaysBeside([u16; 2]),
    /// Something that is named does not exist.
    Missing(Missing),
    /// The literal of a field is on a variable.
    VariableLiteral {
        /// The field, from 0.
        field: usize,
        /// The row.
        row: u16,
    },
    /// A right literal, from 0, has the sign of the left one; or the two literals of a factor have opposite signs.
    Signs(usize),
    /// A literal is factored with itself.
    Itself(u16),
    /// The result would have so many literals and this maximum index.
    TooLarge {
        /// Literals.
        literals: usize,
        /// Maximum index.
        index: usize,
    },
    /// The outlines of the left atom and a right one, from 0, clash.
    Outline(usize, OutlineClash),
    /// Unification ends without a unifier or at a limit.
    Unification(Box<Ended>),
    /// A right literal, from 0, is not larger than the one before.
    Order(usize),
    /// The first day is after the last.
    Crossed([u16; 2]),
}

/// What does not exist, or does not fit.
#[derive(Clone, Copy, PartialEq, Eq, Debug)]
pub enum Missing {
    /// The symbol of field a.
    Symbol(u16),
    /// The symbol of field a takes another number of arguments.
    Arity {
        /// The symbol.
        symbol: u16,
        /// How many arguments it takes.
        takes: u8,
        /// How many are given.
        given: u8,
    },
    /// The row of a field.
    Row {
        /// The field, from 0.
        field: usize,
        /// The row.
        row: u16,
    },
    /// The clause of a field.
    Clause {
        /// The field, from 0.
        field: usize,
        /// The clause.
        clause: u16,
    },
    /// The literal of a field.
    Literal {
        /// The field, from 0.
        field: usize,
        /// The clause, which exists.
        clause: u16,
        /// The literal.
        literal: u16,
    },
    /// The clause that is given days is made by a step.
    NotInput(u16),
}

/// How a unification ended.
pub struct Ended {
    /// The right literal that was paired last, from 0.
    pub other: usize,
    /// The work that was begun.
    pub work: u32,
    /// The bindings that were added.
    pub added: usize,
    /// Why it ended.
    pub failure: Failure,
    /// What the variables had become by then.
    pub values: Values,
}

impl Fault {
    /// The reason that it is refused for.
    pub fn reason(&self) -> Reason {
        match self {
            Fault::Length(_) => Reason::Length,
            Fault::Table => Reason::Table,
            Fault::Kind(_) => Reason::Kind,
            Fault::Count { .. } | Fault::Variable(_) | Fault::Unused { .. } | Fault::DaysBeside(_) => {
                Reason::Range
            }
            Fault::Missing(_) => Reason::Missing,
            Fault::VariableLiteral { .. } => Reason::VariableLiteral,
            Fault::Signs(_) | Fault::Itself(_) => Reason::Signs,
            Fault::TooLarge { .. } => Reason::TooLarge,
            Fault::Outline(..) => Reason::Clash,
            Fault::Unification(ended) => match ended.failure {
                Failure::Clash { .. } => Reason::Clash,
                Failure::Occurs { .. } => Reason::Occurs,
                Failure::Work => Reason::Work,
                Failure::Bindings => Reason::Bindings,
            },
            Fault::Order(_) => Reason::Order,
            Fault::Crossed(_) => Reason::Crossed,
        }
    }
}

/// What is wrong with a file that the check refused, found by the same tests over what stands before the record. None if the file is not
/// refused, or if nothing is found, which is never where the model is that of the check.
pub fn find(model: &Model<'_>) -> Option<Fault> {
    let Verdict::Refused { reason, record } = model.answer().verdict else { return None };
    if !model.form().fits(model.file().len()) {
        return Some(Fault::Length(model.file().len()));
    }
    if reason == Reason::Table {
        return Some(Fault::Table);
    }
    test(model, &model.record(record)?).err()
}

/// The tests of a record.
fn test(model: &Model<'_>, dated: &Dated) -> Result<(), Fault> {
    let record = &dated.record;
    let last = if model.form() == Form::Old { kind::WINDOW } else { kind::RESOLVE_SEVERAL };
    require((kind::SYMBOL..=last).contains(&record.kind), || Fault::Kind(record.kind))?;
    fields::test(dated)?;
    named::test(model, record)?;
    match record.kind {
        kind::INPUT => {
            crossed(dated.days)?;
            named::literals_on_variables(model, record)
        }
        kind::WINDOW => crossed([record.fields[1], record.fields[2]]),
        kind::RESOLVE | kind::FACTOR | kind::RESOLVE_SEVERAL => step::test(model, record),
        _ => Ok(()),
    }
}

/// The first day is not after the last.
fn crossed(days: [u16; 2]) -> Result<(), Fault> {
    require(days[0] <= days[1], || Fault::Crossed(days))
}

/// A test: at fault unless it holds.
fn require(holds: bool, otherwise: impl FnOnce() -> Fault) -> Result<(), Fault> {
    if holds {
        Ok(())
    } else {
        Err(otherwise())
    }
}

/// Is a result within the limits?
fn fits(literals: usize, index: usize) -> bool {
    literals <= usize::from(LITERALS) && index <= usize::from(INDEX)
}
