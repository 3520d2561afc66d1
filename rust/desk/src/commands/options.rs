//! Options that several subcommands take.

use yestrwyn::Form;
use yestrwyn_derivations::Names;

use crate::arguments::Arguments;
use crate::checking::CheckedFile;
use crate::day;
use crate::failure::{shown, Failure};
use crate::input::Source;
use crate::names::names;

/// The value of `--day`, if it is given.
pub fn day(arguments: &Arguments) -> Result<Option<u16>, Failure> {
    let day = arguments.value("--day").map(day::read).transpose();
    day.map_err(|error| Failure::usage(format_args!("--day: {error}")))
}

/// The one file that is named, checked on the day of `--day`, and the names of `--names`, which are read first.
pub fn named_file(arguments: &Arguments) -> Result<(CheckedFile, Names), Failure> {
    let source = Source::of(arguments.one("one file")?);
    let names = names(arguments.value("--names"))?;
    Ok((CheckedFile::read(source, day(arguments)?)?, names))
}

/// The form that an option names; the old one without it.
pub fn form(arguments: &Arguments, option: &str) -> Result<Form, Failure> {
    match arguments.value(option) {
        None => Ok(Form::Old),
        Some(word) if word == "old" => Ok(Form::Old),
        Some(word) if word == "new" => Ok(Form::New),
        Some(word) => Err(Failure::usage(format_args!("{option} is old or new, not '{}'", shown(word)))),
    }
}

/// A clause's number.
pub fn clause(word: &std::ffi::OsStr) -> Result<u16, Failure> {
    let number = word.to_str().filter(|word| word.bytes().all(|byte| byte.is_ascii_digit()));
    let unknown = || format!("'{}' is no number of a clause", shown(word));
    number.and_then(|word| word.parse().ok()).ok_or_else(|| Failure::usage(unknown()))
}
