//! A flight to an airfield that is closed at night. Both slots left for the departure arrive too late.

use yestrwyn_builder::{neg, pos, BuildError, Clause, FileBuilder, Row, Symbol};

/// The rules, the facts of the trip, and the steps to the empty clause.
pub fn file() -> Result<FileBuilder, BuildError> {
    let mut file = FileBuilder::new();
    // Symbols: four that can be true or false, a function of times, and three things.
    let [departs, arrives] = [file.named(1, "departs")?, file.named(2, "arrives")?];
    let [closed, night] = [file.named(2, "closed")?, file.named(1, "night")?];
    let [after, lakeside] = [file.named(1, "after")?, file.named(0, "Lakeside")?];
    let [first, second] = [file.named(0, "21:40")?, file.named(0, "22:20")?];

    // The request: one slot or the other.
    let first = file.constant(first)?;
    let departs_first = file.apply(departs, &[first])?;
    let second = file.constant(second)?;
    let departs_second = file.apply(departs, &[second])?;
    let slots = file.clause(&[pos(departs_first), pos(departs_second)])?;

    // The flight: who departs in slot x arrives at Lakeside after it.
    let x = file.variable(0)?;
    let departs_x = file.apply(departs, &[x])?;
    let lakeside = file.constant(lakeside)?;
    let after_x = file.apply(after, &[x])?;
    let arrives_after_x = file.apply(arrives, &[lakeside, after_x])?;
    let flight = file.clause(&[neg(departs_x), pos(arrives_after_x)])?;

    // The operator's rules: Lakeside is closed at night, and nobody arrives where it is closed.
    let night_x = file.apply(night, &[x])?;
    let closed_x = file.apply(closed, &[lakeside, x])?;
    let curfew = file.clause(&[neg(night_x), pos(closed_x)])?;
    let y = file.variable(1)?;
    let arrives_xy = file.apply(arrives, &[x, y])?;
    let closed_xy = file.apply(closed, &[x, y])?;
    let rule = file.clause(&[neg(arrives_xy), neg(closed_xy)])?;

    // The times: after either slot it is night.
    let late = [
        arrives_at_night(&mut file, after, night, first)?,
        arrives_at_night(&mut file, after, night, second)?,
    ];

    steps(&mut file, [slots, flight, curfew, rule], late)?;
    Ok(file)
}

/// The fact that it is night after a slot.
fn arrives_at_night(
    file: &mut FileBuilder,
    after: Symbol,
    night: Symbol,
    slot: Row,
) -> Result<Clause, BuildError> {
    let after_slot = file.apply(after, &[slot])?;
    let night_after_slot = file.apply(night, &[after_slot])?;
    file.clause(&[pos(night_after_slot)])
}

/// The steps. The clause `too_late` is derived once and used for both slots.
fn steps(
    file: &mut FileBuilder,
    [slots, flight, curfew, rule]: [Clause; 4],
    [first_late, second_late]: [Clause; 2],
) -> Result<Clause, BuildError> {
    let not_closed = file.resolve(flight.literal(2), rule.literal(1))?;
    let too_late = file.resolve(curfew.literal(2), not_closed.literal(2))?;
    let not_first = file.resolve(first_late.literal(1), too_late.literal(1))?;
    let not_second = file.resolve(second_late.literal(1), too_late.literal(1))?;
    let only_second = file.resolve(slots.literal(1), not_first.literal(1))?;
    file.resolve(only_second.literal(1), not_second.literal(1))
}
