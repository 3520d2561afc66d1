//! A rulebook in which one curfew is written twice: for every airfield, and once more for Lakeside.

use yestrwyn_builder::{neg, pos, BuildError, FileBuilder};

/// Three rules and no step: the file is there to be asked which of its rules covers which.
pub fn file() -> Result<FileBuilder, BuildError> {
    let mut file = FileBuilder::new();
    let [night, closed] = [file.named(1, "night")?, file.named(2, "closed")?];
    let [fog, lakeside] = [file.named(2, "fog")?, file.named(0, "Lakeside")?];

    // The curfew in general: at night y every airfield x is closed.
    let [x, y] = [file.variable(0)?, file.variable(1)?];
    let night_y = file.apply(night, &[y])?;
    let closed_xy = file.apply(closed, &[x, y])?;
    file.clause(&[neg(night_y), pos(closed_xy)])?;

    // The same for one airfield, by another desk: Lakeside is closed at any time x, if that is at night.
    let lakeside = file.constant(lakeside)?;
    let lakeside_closed = file.apply(closed, &[lakeside, x])?;
    let night_x = file.apply(night, &[x])?;
    file.clause(&[pos(lakeside_closed), neg(night_x)])?;

    // Another rule about closed airfields: in fog at x at the time y it is closed.
    let fog_xy = file.apply(fog, &[x, y])?;
    file.clause(&[neg(fog_xy), pos(closed_xy)])?;
    Ok(file)
}
