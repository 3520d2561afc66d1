//! The tests of a step on literals that exist.

use yestrwyn_types::record::Record;

use super::{fits, require, Ended, Fault};
use crate::model::{origin, Model, Origin};
use crate::steps::{named, rerun, size, Outcome};

/// Order, signs, size, outlines and unification.
pub fn test(model: &Model<'_>, record: &Record) -> Result<(), Fault> {
    let Some(origin) = origin(record) else { return Ok(()) };
    rising(&origin)?;
    signs(model, &origin)?;
    if let Some((literals, index)) = size(model, &origin) {
        require(fits(literals, index), || Fault::TooLarge { literals, index })?;
    }
    unifies(model, &origin)
}

/// The right literals rise.
fn rising(origin: &Origin) -> Result<(), Fault> {
    let Origin::Resolve { right_literals, .. } = origin else { return Ok(()) };
    let falls = right_literals.windows(2).position(|pair| pair[0] >= pair[1]);
    falls.map_or(Ok(()), |place| Err(Fault::Order(place + 1)))
}

/// The signs fit, and a factor is of two literals.
fn signs(model: &Model<'_>, origin: &Origin) -> Result<(), Fault> {
    let Some(named) = named(model, origin) else { return Ok(()) };
    let mut equal = false;
    if let Origin::Factor { kept, deleted, .. } = *origin {
        require(kept != deleted, || Fault::Itself(kept))?;
        equal = true;
    }
    let wrong = named.others.iter().position(|other| (other.positive == named.one.positive) != equal);
    wrong.map_or(Ok(()), |place| Err(Fault::Signs(place)))
}

/// The atoms have a unifier, which is found within the limits.
fn unifies(model: &Model<'_>, origin: &Origin) -> Result<(), Fault> {
    let Some(rerun) = rerun(model, origin, model.bindings().len()) else { return Ok(()) };
    match rerun.outcome {
        Outcome::Outline(place, clash) => Err(Fault::Outline(place, clash)),
        Outcome::Unified(unified) => {
            let Some(failure) = unified.failure else { return Ok(()) };
            let (other, work, added) = (unified.other, unified.work, unified.added);
            Err(Fault::Unification(Box::new(Ended { other, work, added, failure, values: rerun.values })))
        }
    }
}
