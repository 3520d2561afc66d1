//! The tests of a record by its own bytes.

use yestrwyn_types::limits::{ARITY, INPUT_LITERALS, RIGHT_LITERALS, VARIABLES};
use yestrwyn_types::record::kind;
use yestrwyn_types::Dated;

use super::{require, Fault};

/// Byte 1, the variable number, and what must be zero.
pub fn test(dated: &Dated) -> Result<(), Fault> {
    let record = &dated.record;
    let found = record.count;
    require(record.kind == kind::INPUT || dated.no_days(), || Fault::DaysBeside(dated.days))?;
    let (least, most) = bounds(record.kind);
    require((least..=most).contains(&found), || Fault::Count { found, least, most })?;
    let number = record.fields[0];
    let is_variable = record.kind != kind::VARIABLE || usize::from(number) < VARIABLES;
    require(is_variable, || Fault::Variable(number))?;
    let unused =
        (0..).zip(record.fields).skip(used(record.kind, found.into())).find(|(_, value)| *value != 0);
    unused.map_or(Ok(()), |(field, value)| Err(Fault::Unused { field, value }))
}

/// The bounds of byte 1.
pub fn bounds(of: u8) -> (u8, u8) {
    match of {
        kind::SYMBOL | kind::APPLICATION => (0, ARITY),
        kind::INPUT => (0, INPUT_LITERALS),
        kind::RESOLVE_SEVERAL => (1, RIGHT_LITERALS),
        _ => (0, 0),
    }
}

/// How many fields a kind uses, with this count.
pub fn used(of: u8, count: usize) -> usize {
    match of {
        kind::SYMBOL => 0,
        kind::VARIABLE => 1,
        kind::APPLICATION => 1 + count,
        kind::INPUT => count,
        kind::RESOLVE => 4,
        kind::RESOLVE_SEVERAL => 3 + count,
        _ => 3,
    }
}
