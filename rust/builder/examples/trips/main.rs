//! Trips without a lawful plan and small rulebooks, written as proof files: copy one to begin a planner's writer.
//!
//!     cargo run --example trips
//!
//! writes each file, the names of its symbols, and its readout on day 0 by the second implementation, into the folder `examples` of the
//! repository; of some files the readout on another day too. The page there says what every symbol and clause means.

use std::error::Error;
use std::fs;
use std::path::Path;

mod archive;
mod covers;
mod curfew;
mod declined;
mod duty;
mod files;
mod permit;
mod rulebook;
mod season;
mod sheets;
mod trip;
mod two_steps;

use files::Named;

fn main() -> Result<(), Box<dyn Error>> {
    let folder = Path::new(env!("CARGO_MANIFEST_DIR")).join("../../examples");
    for Named { name, bytes: file, names } in files::files()? {
        fs::write(folder.join(format!("{name}.proof")), &file)?;
        fs::write(folder.join(format!("{name}.names")), names)?;
        fs::write(folder.join(format!("{name}.txt")), yestrwyn_second::readout(0, &file))?;
        for (_, day) in files::OTHER_DAYS.iter().filter(|(other, _)| *other == name) {
            fs::write(folder.join(format!("{name}-{day}.txt")), yestrwyn_second::readout(*day, &file))?;
        }
    }
    Ok(())
}
