//! Files that are read: by their path, or standard input.

use std::ffi::OsStr;
use std::fmt;
use std::fs::{self, File};
use std::io::{self, Read};
use std::path::{Path, PathBuf};
use std::sync::atomic::{AtomicBool, Ordering};

use yestrwyn::limits::FILE_BYTES;

use crate::failure::{shown, Failure};

/// A byte more than a proof file may have: what is longer is refused by it, however long it is.
const ENOUGH: usize = FILE_BYTES + 1;

/// Was standard input read? It would be empty the second time, and an empty file is open.
static READ: AtomicBool = AtomicBool::new(false);

/// Where a file is read from.
#[derive(Clone, PartialEq, Eq, Debug)]
pub enum Source {
    /// Standard input, which is named `-`.
    Standard,
    /// A file.
    Path(PathBuf),
}

impl Source {
    /// What a word names.
    pub fn of(word: &OsStr) -> Source {
        match word.as_encoded_bytes() {
            b"-" => Source::Standard,
            _ => Source::Path(PathBuf::from(word)),
        }
    }

    /// Reads a proof file, and no more of it than tells that it is too long.
    pub fn read(&self) -> Result<Vec<u8>, Failure> {
        let mut bytes = Vec::new();
        self.read_into(&mut bytes)?;
        Ok(bytes)
    }

    /// The same into a buffer that is kept between files.
    pub fn read_into(&self, bytes: &mut Vec<u8>) -> Result<(), Failure> {
        self.read_at_most(ENOUGH, bytes)
    }

    /// Reads a text of at most so many bytes.
    pub fn read_text(&self, most: usize) -> Result<Vec<u8>, Failure> {
        let mut bytes = Vec::new();
        self.read_at_most(most + 1, &mut bytes)?;
        if bytes.len() > most {
            return Err(Failure::of(self, format_args!("it is longer than {most} bytes")));
        }
        Ok(bytes)
    }

    /// The path, unless it is standard input.
    pub fn path(&self) -> Option<&Path> {
        match self {
            Source::Standard => None,
            Source::Path(path) => Some(path),
        }
    }

    /// Reads so many bytes, or fewer where the file ends.
    fn read_at_most(&self, most: usize, bytes: &mut Vec<u8>) -> Result<(), Failure> {
        bytes.clear();
        let read = match self {
            Source::Standard if READ.swap(true, Ordering::Relaxed) => {
                return Err(Failure::usage("standard input is named twice, and can be read once"));
            }
            Source::Standard => io::stdin().lock().take(most as u64).read_to_end(bytes),
            Source::Path(path) => File::open(path).and_then(|file| file.take(most as u64).read_to_end(bytes)),
        };
        match read {
            Ok(_) => Ok(()),
            Err(error) if error.kind() == io::ErrorKind::IsADirectory => {
                Err(Failure::of(self, "it is a folder, and a file is wanted"))
            }
            Err(error) => Err(Failure::of(self, cause(&error))),
        }
    }
}

impl fmt::Display for Source {
    fn fmt(&self, out: &mut fmt::Formatter<'_>) -> fmt::Result {
        match self {
            Source::Standard => out.write_str("standard input"),
            Source::Path(path) => out.write_str(&shown(path.as_os_str())),
        }
    }
}

/// An error of the system in words.
pub fn cause(error: &io::Error) -> String {
    match error.kind() {
        io::ErrorKind::NotFound => "there is no such file".to_string(),
        io::ErrorKind::PermissionDenied => "permission denied".to_string(),
        io::ErrorKind::StorageFull => "no space left on the device".to_string(),
        _ => error.to_string(),
    }
}

/// A file that was found, or a folder in which none could be looked for.
#[derive(Clone, PartialEq, Eq, Debug)]
pub struct Found {
    /// What it is.
    pub source: Source,
    /// Why there is nothing to be read.
    pub failure: Option<Failure>,
}

impl Found {
    fn file(source: Source) -> Found {
        Found { source, failure: None }
    }

    fn failed(source: Source, what: impl fmt::Display) -> Found {
        Found { failure: Some(Failure::of(&source, what)), source }
    }
}

/// The files that a source stands for: itself, or all files of a folder and of the folders in it, sorted by name. Links to folders are
/// not followed, and pipes and devices in a folder are left out. A folder without a file is a failure: nothing was checked.
pub fn files_of(source: Source) -> Vec<Found> {
    let Some(folder) = source.path().filter(|path| path.is_dir()) else { return vec![Found::file(source)] };
    let (mut found, mut folders) = (Vec::new(), vec![folder.to_path_buf()]);
    while let Some(folder) = folders.pop() {
        if let Err(error) = list(&folder, &mut found, &mut folders) {
            found.push(Found::failed(Source::Path(folder), cause(&error)));
        }
    }
    if found.is_empty() {
        return vec![Found::failed(source, "there is no file in this folder")];
    }
    found.sort_by(|one, other| one.source.path().cmp(&other.source.path()));
    found
}

/// Adds the files and the folders of a folder.
fn list(folder: &Path, found: &mut Vec<Found>, folders: &mut Vec<PathBuf>) -> io::Result<()> {
    for entry in fs::read_dir(folder)? {
        let path = entry?.path();
        let kind = fs::symlink_metadata(&path)?.file_type();
        // What a link leads to says whether it is a file; one that leads nowhere is a failure once it is read.
        let target = if kind.is_symlink() {
            fs::metadata(&path).ok().map(|target| target.file_type())
        } else {
            Some(kind)
        };
        if kind.is_dir() {
            folders.push(path);
        } else if target.is_none_or(|target| target.is_file()) {
            found.push(Found::file(Source::Path(path)));
        }
    }
    Ok(())
}
