//! The archive of a declined quote: of its file what the proof uses, and nothing else.

use std::error::Error;

use yestrwyn_builder::FileBuilder;

use super::declined;

/// The day of the trip, on which the quote was declined.
pub const DAY: u16 = 21_000;

/// The file of the declined quote, trimmed. Here the second implementation trims it; a service has the proved function do it.
pub fn file() -> Result<Vec<u8>, Box<dyn Error>> {
    Ok(yestrwyn_second::trim(DAY, &declined::file()?)?)
}

/// The names of its symbols, which are closed up like all numbers: those of the declined file, without the slot's.
pub fn names() -> Result<String, Box<dyn Error>> {
    let mut file = FileBuilder::from_bytes(&file()?)?;
    for (number, name) in (0..).zip(["arrives", "closed", "night", "Lakeside", "23:15", "23:55"]) {
        file.name(file.existing_symbol(number)?, name)?;
    }
    Ok(file.names())
}
