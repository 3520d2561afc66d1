//! The words after a subcommand: flags, options with a value, and the rest.

use std::ffi::{OsStr, OsString};
use std::os::unix::ffi::OsStrExt;

use crate::failure::{shown, Failure};

/// The options that a subcommand takes.
#[derive(Clone, Copy, Debug)]
pub struct Takes {
    /// Those without a value, such as `--json`.
    pub flags: &'static [&'static str],
    /// Those with one, such as `--day D`.
    pub values: &'static [&'static str],
}

/// What was asked for.
#[derive(Clone, PartialEq, Eq, Default, Debug)]
pub struct Arguments {
    flags: Vec<&'static str>,
    values: Vec<(&'static str, OsString)>,
    rest: Vec<OsString>,
}

impl Arguments {
    /// Reads the words: options in any place, `--day D` or `--day=D`; after `--` no word is an option, and `-` never is.
    pub fn read(takes: Takes, words: impl IntoIterator<Item = OsString>) -> Result<Arguments, Failure> {
        let (mut read, mut words) = (Arguments::default(), words.into_iter());
        while let Some(word) = words.next() {
            if word == "--" {
                read.rest.extend(words);
                break;
            }
            if word == "-" || word.as_bytes().first() != Some(&b'-') {
                read.rest.push(word);
            } else {
                read.option(takes, &word, &mut words)?;
            }
        }
        Ok(read)
    }

    /// Was a flag given?
    pub fn has(&self, flag: &str) -> bool {
        self.flags.contains(&flag)
    }

    /// The value of an option, if it was given.
    pub fn value(&self, option: &str) -> Option<&OsStr> {
        self.values.iter().find(|(name, _)| *name == option).map(|(_, value)| value.as_os_str())
    }

    /// The words that are no options.
    pub fn rest(&self) -> &[OsString] {
        &self.rest
    }

    /// The one word that is no option.
    pub fn one(&self, what: &str) -> Result<&OsStr, Failure> {
        match self.rest() {
            [one] => Ok(one),
            rest => Err(Failure::usage(format_args!("{what} is wanted, and {} words are given", rest.len()))),
        }
    }

    /// Reads an option, and the next word where it is its value.
    fn option(
        &mut self,
        takes: Takes,
        word: &OsStr,
        words: &mut impl Iterator<Item = OsString>,
    ) -> Result<(), Failure> {
        let (name, value) = split(word);
        let same = |known: &&&'static str| known.as_bytes() == name;
        if let Some(&flag) = takes.flags.iter().find(same) {
            return match value {
                None => self.once(flag).map(|()| self.flags.push(flag)),
                Some(_) => Err(Failure::usage(format_args!("{flag} takes no value"))),
            };
        }
        let Some(&option) = takes.values.iter().find(same) else {
            return Err(Failure::usage(format_args!("unknown option '{}'", shown(OsStr::from_bytes(name)))));
        };
        self.once(option)?;
        let missing = || Failure::usage(format_args!("{option} takes a value"));
        let value = value.map(OsStr::to_os_string).or_else(|| words.next()).ok_or_else(missing)?;
        self.values.push((option, value));
        Ok(())
    }

    /// An error if an option was given already.
    fn once(&self, option: &str) -> Result<(), Failure> {
        if self.has(option) || self.value(option).is_some() {
            return Err(Failure::usage(format_args!("{option} is given twice")));
        }
        Ok(())
    }
}

/// The name of an option, and what follows the first `=` of one with two hyphens.
fn split(word: &OsStr) -> (&[u8], Option<&OsStr>) {
    let bytes = word.as_bytes();
    let equals = bytes.iter().position(|&byte| byte == b'=').filter(|_| bytes.starts_with(b"--"));
    match equals {
        Some(at) => (&bytes[..at], Some(OsStr::from_bytes(&bytes[at + 1..]))),
        None => (bytes, None),
    }
}

#[cfg(test)]
mod tests {
    use super::*;

    const TAKES: Takes = Takes { flags: &["--json"], values: &["--day", "-o"] };

    fn read(words: &[&str]) -> Result<Arguments, String> {
        Arguments::read(TAKES, words.iter().map(OsString::from)).map_err(|failure| failure.to_string())
    }

    #[test]
    fn options_stand_anywhere() {
        let read = read(&["a", "--day", "7", "-", "--json", "-o", "-", "--", "--b", "--"]).expect("words");
        assert_eq!(read.rest(), ["a", "-", "--b", "--"]);
        assert!(read.has("--json"));
        assert_eq!((read.value("--day"), read.value("-o")), (Some(OsStr::new("7")), Some(OsStr::new("-"))));
    }

    #[test]
    fn a_value_after_an_equals_sign() {
        let read = read(&["--day=2027-07-01", "-o", "a=b"]).expect("words");
        assert_eq!(read.value("--day"), Some(OsStr::new("2027-07-01")));
        assert_eq!(read.value("-o"), Some(OsStr::new("a=b")));
        assert!(!read.has("--json") && read.one("a file").is_err());
    }

    #[test]
    fn what_is_wrong_is_named() {
        for (words, why) in [
            (&["--dya", "7"][..], "unknown option '--dya'"),
            (&["-x"], "unknown option '-x'"),
            (&["-o=a"], "unknown option '-o=a'"),
            (&["--day"], "--day takes a value"),
            (&["--json=yes"], "--json takes no value"),
            (&["--json", "--json"], "--json is given twice"),
            (&["--day", "1", "--day=2"], "--day is given twice"),
        ] {
            assert_eq!(read(words), Err(why.to_string()), "{words:?}");
        }
    }
}
