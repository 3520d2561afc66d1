//! Files that are written, whole or not at all.

use std::ffi::OsStr;
use std::fmt;
use std::fs::{self, File, Metadata, OpenOptions};
use std::io::{self, Write};
use std::os::unix::fs::MetadataExt;
use std::path::{Path, PathBuf};
use std::process;

use crate::failure::{shown, Failure};
use crate::input::{cause, Source};
use crate::output::Output;

/// Where a file is written to.
pub enum Destination {
    /// Standard output, which is named `-`.
    Standard,
    /// A file.
    Path(PathBuf),
}

impl Destination {
    /// What the value of `-o` names; it must be given.
    pub fn of(word: Option<&OsStr>) -> Result<Destination, Failure> {
        match word {
            None => Err(Failure::usage("-o FILE says where to write, or -o - for standard output")),
            Some(word) if word == "-" => Ok(Destination::Standard),
            Some(word) => Ok(Destination::Path(PathBuf::from(word))),
        }
    }

    /// Writes a file whole or not at all: beside its place first, and then moved there in one go. It may take the place of an earlier
    /// one, but not of a file that is read or of one that is made read-only. What is no file, such as a pipe, is written to as it is.
    pub fn save(&self, inputs: &[&Source], bytes: &[u8], output: &mut Output) -> Result<(), Failure> {
        match self {
            Destination::Standard => output.print(bytes),
            Destination::Path(path) => {
                let failed = |what: String| Failure::of(self, what);
                match fs::metadata(path) {
                    Ok(there) if there.is_dir() => {
                        Err(failed("it is a folder, and a file is to be written".into()))
                    }
                    Ok(there) if !there.is_file() => {
                        write_through(path, bytes).map_err(|error| failed(cause(&error)))
                    }
                    Ok(there) => {
                        may_be_replaced(&there, inputs).map_err(failed)?;
                        replace(path, Some(&there), bytes).map_err(|error| failed(cause(&error)))
                    }
                    Err(_) => replace(path, None, bytes).map_err(|error| failed(wanting(&error, path))),
                }
            }
        }
    }
}

impl fmt::Display for Destination {
    fn fmt(&self, out: &mut fmt::Formatter<'_>) -> fmt::Result {
        match self {
            Destination::Standard => out.write_str("standard output"),
            Destination::Path(path) => out.write_str(&shown(path.as_os_str())),
        }
    }
}

/// Why a file that is not there could not be made; most often its folder is missing.
fn wanting(error: &io::Error, path: &Path) -> String {
    match error.kind() {
        io::ErrorKind::NotFound => format!("there is no folder '{}'", shown(folder_of(path).as_os_str())),
        _ => cause(error),
    }
}

/// An error if a file is among those that are read, or is made read-only.
fn may_be_replaced(there: &Metadata, inputs: &[&Source]) -> Result<(), String> {
    let place = |metadata: &Metadata| (metadata.dev(), metadata.ino());
    let mut read = inputs.iter().filter_map(|input| fs::metadata(input.path()?).ok());
    if read.any(|input| place(&input) == place(there)) {
        return Err("it is read, and is not written over: name another file after -o".to_string());
    }
    if there.permissions().readonly() {
        return Err("it is read-only, and is not written over".to_string());
    }
    Ok(())
}

/// Writes to what is no file.
fn write_through(path: &Path, bytes: &[u8]) -> io::Result<()> {
    let mut device = OpenOptions::new().write(true).open(path)?;
    device.write_all(bytes)?;
    device.flush()
}

/// Puts a file into its place, where a link keeps its target and an earlier file's permissions stay.
fn replace(path: &Path, earlier: Option<&Metadata>, bytes: &[u8]) -> io::Result<()> {
    let target = earlier.map_or_else(|| Ok(path.to_path_buf()), |_| fs::canonicalize(path))?;
    let folder = folder_of(&target);
    let (mut file, beside) = Temporary::make(folder)?;
    file.write_all(bytes)?;
    if let Some(earlier) = earlier {
        file.set_permissions(earlier.permissions())?;
    }
    file.sync_all()?;
    beside.move_to(&target)?;
    // The folder keeps the name only once it is on the disk too. Where it cannot be opened for that, the file is there all the same.
    let _ = File::open(folder).and_then(|folder| folder.sync_all());
    Ok(())
}

/// The folder that a file is in.
fn folder_of(path: &Path) -> &Path {
    path.parent().filter(|folder| !folder.as_os_str().is_empty()).unwrap_or(Path::new("."))
}

/// A file that is removed unless it is moved to its place.
pub struct Temporary {
    path: PathBuf,
    moved: bool,
}

impl Temporary {
    /// Makes a file of a name that nothing in a folder has.
    pub fn make(folder: &Path) -> io::Result<(File, Temporary)> {
        let mut number = 0;
        loop {
            let path = folder.join(format!(".yestrwyn-{}-{number}", process::id()));
            match OpenOptions::new().write(true).create_new(true).open(&path) {
                Ok(file) => return Ok((file, Temporary { path, moved: false })),
                Err(error) if error.kind() == io::ErrorKind::AlreadyExists && number < 100 => number += 1,
                Err(error) => return Err(error),
            }
        }
    }

    /// Where it is.
    pub fn path(&self) -> &Path {
        &self.path
    }

    fn move_to(mut self, target: &Path) -> io::Result<()> {
        fs::rename(&self.path, target)?;
        self.moved = true;
        Ok(())
    }
}

impl Drop for Temporary {
    fn drop(&mut self) {
        if !self.moved {
            let _ = fs::remove_file(&self.path);
        }
    }
}
