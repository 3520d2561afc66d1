//! Duty sheets that must be signed before a trip, among them that of the one who signs for others.

use yestrwyn_builder::{neg, pos, BuildError, FileBuilder};

/// Two rules, and two steps to the empty clause. Each step resolves one literal with two at once.
pub fn file() -> Result<FileBuilder, BuildError> {
    let mut file = FileBuilder::new();
    let [signs, vale] = [file.named(2, "signs")?, file.named(0, "Vale")?];

    // The operator's rule: every pilot x signs the own sheet, or Vale does.
    let x = file.variable(0)?;
    let by_x = file.apply(signs, &[x, x])?;
    let vale = file.constant(vale)?;
    let by_vale = file.apply(signs, &[vale, x])?;
    let signed = file.clause(&[pos(by_x), pos(by_vale)])?;

    // The authority's rule: Vale signs no sheet that its pilot signs.
    let not_both = file.clause(&[neg(by_vale), neg(by_x)])?;

    // Steps. Of Vale's own sheet both literals of the first rule say the same, so they go together.
    let either = [signed.literal(1), signed.literal(2)];
    let not_vales_own = file.resolve_several(not_both.literal(1), &either)?;
    file.resolve_several(not_vales_own.literal(1), &either)?;
    Ok(file)
}
