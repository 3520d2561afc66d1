//! A curfew that is in force for a season only, and is extended after it was published.

use yestrwyn_builder::{neg, pos, BuildError, FileBuilder};

/// The rules, the facts of the trip, the steps to the empty clause, and the days of the curfew. Day 0 is 1 January 1970.
pub fn file() -> Result<FileBuilder, BuildError> {
    let mut file = FileBuilder::new();
    let [arrives, closed] = [file.named(2, "arrives")?, file.named(2, "closed")?];
    let [night, lakeside] = [file.named(1, "night")?, file.named(0, "Lakeside")?];
    let late = file.named(0, "23:15")?;

    // The request: an arrival at Lakeside at 23:15.
    let (lakeside, late) = (file.constant(lakeside)?, file.constant(late)?);
    let arrives_late = file.apply(arrives, &[lakeside, late])?;
    let request = file.clause(&[pos(arrives_late)])?;

    // The operator's rule: no arrival at an airfield x at a time y when it is closed.
    let (x, y) = (file.variable(0)?, file.variable(1)?);
    let (arrives_xy, closed_xy) = (file.apply(arrives, &[x, y])?, file.apply(closed, &[x, y])?);
    let rule = file.clause(&[neg(arrives_xy), neg(closed_xy)])?;

    // The authority's curfew: at night Lakeside is closed, from 1 June to 30 September 2027.
    let (night_x, closed_x) = (file.apply(night, &[x])?, file.apply(closed, &[lakeside, x])?);
    let curfew = file.clause(&[neg(night_x), pos(closed_x)])?;
    file.in_force(curfew, 20_970..=21_091)?;

    // A fact: 23:15 is at night.
    let night_late = file.apply(night, &[late])?;
    let at_night = file.clause(&[pos(night_late)])?;

    // Steps.
    let not_at_night = file.resolve(curfew.literal(2), rule.literal(2))?;
    let not_late = file.resolve(at_night.literal(1), not_at_night.literal(1))?;
    file.resolve(request.literal(1), not_late.literal(1))?;

    // The curfew is extended: from 1 May to 31 October 2027. These days supersede the others, for the steps above too.
    file.in_force(curfew, 20_939..=21_122)?;
    Ok(file)
}
