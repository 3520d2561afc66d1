//! Two routes, both over a state that has given no overflight permit.

use yestrwyn_builder::{neg, pos, BuildError, FileBuilder};

/// The rule, the facts of the trip, and the steps to the empty clause. A term is made where it is first
/// used and named by its handle from then on.
pub fn file() -> Result<FileBuilder, BuildError> {
    let mut file = FileBuilder::new();
    let [flown, crosses] = [file.named(1, "flown")?, file.named(2, "crosses")?];
    let [permit, north] = [file.named(1, "permit")?, file.named(0, "north-route")?];
    let [coast, norland] = [file.named(0, "coast-route")?, file.named(0, "Norland")?];

    // The request: either route.
    let north = file.constant(north)?;
    let flown_north = file.apply(flown, &[north])?;
    let coast = file.constant(coast)?;
    let flown_coast = file.apply(flown, &[coast])?;
    let routes = file.clause(&[pos(flown_north), pos(flown_coast)])?;

    // The operator's rule: a route x that is flown and crosses y has a permit of y.
    let x = file.variable(0)?;
    let flown_x = file.apply(flown, &[x])?;
    let y = file.variable(1)?;
    let x_over_y = file.apply(crosses, &[x, y])?;
    let permit_y = file.apply(permit, &[y])?;
    let rule = file.clause(&[neg(flown_x), neg(x_over_y), pos(permit_y)])?;

    // The facts: both routes cross Norland, and there is no permit.
    let norland = file.constant(norland)?;
    let north_over = file.apply(crosses, &[north, norland])?;
    let north_over = file.clause(&[pos(north_over)])?;
    let coast_over = file.apply(crosses, &[coast, norland])?;
    let coast_over = file.clause(&[pos(coast_over)])?;
    let permit_norland = file.apply(permit, &[norland])?;
    let none = file.clause(&[neg(permit_norland)])?;

    // Steps. The clause `not_over` is derived once and used for both routes.
    let not_over = file.resolve(rule.literal(3), none.literal(1))?;
    let not_north = file.resolve(north_over.literal(1), not_over.literal(2))?;
    let not_coast = file.resolve(coast_over.literal(1), not_over.literal(2))?;
    let only_coast = file.resolve(routes.literal(1), not_north.literal(1))?;
    file.resolve(only_coast.literal(1), not_coast.literal(1))?;
    Ok(file)
}
