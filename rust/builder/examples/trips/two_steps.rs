//! The two-step refutation of the format description's case A.

use yestrwyn_builder::{neg, pos, BuildError, FileBuilder};

/// p holds of a; where it holds of x it holds of f(x); and yet it is said not to hold of f(a).
pub fn file() -> Result<FileBuilder, BuildError> {
    let mut file = FileBuilder::new();
    let [p, f, a] = [file.named(1, "p")?, file.named(1, "f")?, file.named(0, "a")?];
    let a = file.constant(a)?;
    let pa = file.apply(p, &[a])?;
    let x = file.variable(0)?;
    let fx = file.apply(f, &[x])?;
    let (px, pfx) = (file.apply(p, &[x])?, file.apply(p, &[fx])?);
    let fa = file.apply(f, &[a])?;
    let pfa = file.apply(p, &[fa])?;
    let start = file.clause(&[pos(pa)])?;
    let rule = file.clause(&[neg(px), pos(pfx)])?;
    let goal = file.clause(&[neg(pfa)])?;
    let derived = file.resolve(start.literal(1), rule.literal(1))?;
    file.resolve(derived.literal(1), goal.literal(1))?;
    Ok(file)
}
