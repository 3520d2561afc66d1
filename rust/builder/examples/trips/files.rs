//! The stored files by name.

use std::error::Error;

use yestrwyn_builder::FileBuilder;

use super::{archive, covers, curfew, declined, duty, permit, rulebook, season, sheets, trip, two_steps};

/// Files whose readout is stored for another day too, beside that of day 0.
pub const OTHER_DAYS: [(&str, u16); 3] =
    [("season", 21_000), ("declined", 21_000), ("archive", archive::DAY)];

/// A file with its name, and the names of its symbols as a text.
pub struct Named {
    pub name: &'static str,
    pub bytes: Vec<u8>,
    pub names: String,
}

/// Every file of the folder `examples`, in the order of its page.
pub fn files() -> Result<Vec<Named>, Box<dyn Error>> {
    Ok(vec![
        built("curfew", curfew::file()?),
        built("duty", duty::file()?),
        built("permit", permit::file()?),
        built("sheets", sheets::file()?),
        built("season", season::file()?),
        built("rulebook", rulebook::file()?),
        built("trip", trip::file()?),
        Named { name: "merged", bytes: declined::merged()?, names: declined::names()? },
        Named { name: "declined", bytes: declined::file()?, names: declined::names()? },
        Named { name: "archive", bytes: archive::file()?, names: archive::names()? },
        built("covers", covers::file()?),
        built("refused", duty::refused_file()?),
        built("two_steps", two_steps::file()?),
    ])
}

/// A file that a builder has written, with the names that it has given.
fn built(name: &'static str, file: FileBuilder) -> Named {
    let names = file.names();
    Named { name, bytes: file.finish(), names }
}
