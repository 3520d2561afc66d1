//! An operator's rulebook: rules without a trip, of which one is in force for a season.

use yestrwyn_builder::{neg, pos, BuildError, FileBuilder};

/// The rules. Day 0 is 1 January 1970.
pub fn file() -> Result<FileBuilder, BuildError> {
    let mut file = FileBuilder::new();
    let [arrives, closed] = [file.named(2, "arrives")?, file.named(2, "closed")?];
    let [night, lakeside] = [file.named(1, "night")?, file.named(0, "Lakeside")?];
    let slot = file.named(2, "slot")?;

    // The operator's rule: no arrival at an airfield x at a time y when it is closed.
    let (x, y) = (file.variable(0)?, file.variable(1)?);
    let (arrives_xy, closed_xy) = (file.apply(arrives, &[x, y])?, file.apply(closed, &[x, y])?);
    file.clause(&[neg(arrives_xy), neg(closed_xy)])?;

    // The authority's curfew: at night Lakeside is closed, from 1 May to 31 October 2027.
    let lakeside = file.constant(lakeside)?;
    let (night_x, closed_x) = (file.apply(night, &[x])?, file.apply(closed, &[lakeside, x])?);
    let curfew = file.clause(&[neg(night_x), pos(closed_x)])?;
    file.in_force(curfew, 20_939..=21_122)?;

    // Another rule, which the trip's proof does not need: who arrives at x at the time y has a slot there and then.
    let slot_xy = file.apply(slot, &[x, y])?;
    file.clause(&[neg(arrives_xy), pos(slot_xy)])?;
    Ok(file)
}
