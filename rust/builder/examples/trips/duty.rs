//! Three legs and two crews, where any two of the legs are too long for one crew.

use yestrwyn_builder::{neg, pos, BuildError, Clause, FileBuilder, Row, Symbol};

/// The file as it should be: the second step names literal 2 of the clause before it.
pub fn file() -> Result<FileBuilder, BuildError> {
    build(2)
}

/// The same file with a slip: the second step names literal 1, as if the right parent's literals came first.
pub fn refused_file() -> Result<FileBuilder, BuildError> {
    build(1)
}

/// The rules, and the steps to the empty clause.
fn build(second_step: u16) -> Result<FileBuilder, BuildError> {
    let mut file = FileBuilder::new();
    let flies = file.named(2, "flies")?;
    let [amber, blue] = [file.named(0, "Amber")?, file.named(0, "Blue")?];
    let legs = [file.named(0, "leg-1")?, file.named(0, "leg-2")?, file.named(0, "leg-3")?];

    // Every leg x is flown by one crew or the other.
    let amber = file.constant(amber)?;
    let x = file.variable(0)?;
    let amber_x = file.apply(flies, &[amber, x])?;
    let blue = file.constant(blue)?;
    let blue_x = file.apply(flies, &[blue, x])?;
    let crewed = file.clause(&[pos(amber_x), pos(blue_x)])?;

    // No crew x flies two of the three.
    let pair_12 = too_long(&mut file, flies, x, [legs[0], legs[1]])?;
    let pair_13 = too_long(&mut file, flies, x, [legs[0], legs[2]])?;
    let pair_23 = too_long(&mut file, flies, x, [legs[1], legs[2]])?;

    // Blue cannot fly leg 3. The step before the factor says so twice over.
    let amber_not_both = file.resolve(crewed.literal(1), pair_12.literal(1))?;
    let blue_one_of_12 = file.resolve(crewed.literal(1), amber_not_both.literal(second_step))?;
    let not_13 = file.resolve(blue_one_of_12.literal(2), pair_13.literal(1))?;
    let twice = file.resolve(not_13.literal(1), pair_23.literal(1))?;
    let blue_not_3 = file.factor(twice.literal(1), twice.literal(2))?;

    // So Amber flies leg 3 and neither of the others, and Blue would have to fly both of them.
    let amber_3 = file.resolve(crewed.literal(2), blue_not_3.literal(1))?;
    let amber_not_1 = file.resolve(amber_3.literal(1), pair_13.literal(2))?;
    let blue_1 = file.resolve(crewed.literal(1), amber_not_1.literal(1))?;
    let amber_not_2 = file.resolve(amber_3.literal(1), pair_23.literal(2))?;
    let blue_2 = file.resolve(crewed.literal(1), amber_not_2.literal(1))?;
    let blue_not_2 = file.resolve(blue_1.literal(1), pair_12.literal(1))?;
    file.resolve(blue_2.literal(1), blue_not_2.literal(1))?;
    Ok(file)
}

/// The rule that crew x does not fly both of two legs. Each leg's term stands in the file once, however
/// often it is asked for.
fn too_long(
    file: &mut FileBuilder,
    flies: Symbol,
    x: Row,
    [one, other]: [Symbol; 2],
) -> Result<Clause, BuildError> {
    let one = file.constant(one)?;
    let flies_one = file.apply(flies, &[x, one])?;
    let other = file.constant(other)?;
    let flies_other = file.apply(flies, &[x, other])?;
    file.clause(&[neg(flies_one), neg(flies_other)])
}
