//! The facts of a trip, without rules: written by another desk, with the rulebook's symbols and two of its own.

use yestrwyn_builder::{pos, BuildError, FileBuilder};

/// What is asked for, and the facts. The first five symbols are the rulebook's, with its numbers and arities.
pub fn file() -> Result<FileBuilder, BuildError> {
    let mut file = FileBuilder::new();
    let [arrives, _closed] = [file.named(2, "arrives")?, file.named(2, "closed")?];
    let [night, lakeside] = [file.named(1, "night")?, file.named(0, "Lakeside")?];
    let _slot = file.named(2, "slot")?;
    let [first, second] = [file.named(0, "23:15")?, file.named(0, "23:55")?];

    // The request, for 1 July 2027 alone: an arrival at Lakeside at 23:15 or at 23:55.
    let (lakeside, first, second) = (file.constant(lakeside)?, file.constant(first)?, file.constant(second)?);
    let arrives_first = file.apply(arrives, &[lakeside, first])?;
    let arrives_second = file.apply(arrives, &[lakeside, second])?;
    let request = file.clause(&[pos(arrives_first), pos(arrives_second)])?;
    file.in_force(request, 21_000..=21_000)?;

    // The facts: both times are at night.
    for time in [first, second] {
        let night_then = file.apply(night, &[time])?;
        file.clause(&[pos(night_then)])?;
    }
    Ok(file)
}
