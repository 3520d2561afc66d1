//! A declined quote: the rulebook and the trip's facts merged into one file, and the planner's steps appended to it.

use std::error::Error;

use yestrwyn_builder::{BuildError, FileBuilder};

use super::{rulebook, trip};

/// The rulebook and the trip in one, as the broker service hands it to the planner. Here the second implementation merges
/// them; a service has the proved function do it.
pub fn merged() -> Result<Vec<u8>, Box<dyn Error>> {
    Ok(yestrwyn_second::merge(rulebook::file()?.bytes(), trip::file()?.bytes())?)
}

/// The names of the symbols of both files: the trip has the rulebook's list and goes on from it.
pub fn names() -> Result<String, BuildError> {
    Ok(trip::file()?.names())
}

/// The merged file with the steps to the empty clause. The planner goes on from the merged file, and names its clauses by their
/// numbers: the three rules come first, then the three facts.
pub fn file() -> Result<Vec<u8>, Box<dyn Error>> {
    let mut file = FileBuilder::from_bytes(&merged()?)?;
    let [rule, curfew] = [file.existing_clause(0)?, file.existing_clause(1)?];
    let request = file.existing_clause(3)?;
    let [first_late, second_late] = [file.existing_clause(4)?, file.existing_clause(5)?];

    // Steps. The clause `not_at_night` is of the rulebook alone, and is used for both times.
    let not_at_night = file.resolve(curfew.literal(2), rule.literal(2))?;
    let not_first = file.resolve(first_late.literal(1), not_at_night.literal(1))?;
    let not_second = file.resolve(second_late.literal(1), not_at_night.literal(1))?;
    let only_second = file.resolve(request.literal(1), not_first.literal(1))?;
    file.resolve(only_second.literal(1), not_second.literal(1))?;
    Ok(file.finish())
}
