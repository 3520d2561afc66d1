//! The built command, run by tests, and folders for the files that it reads and writes.
//!
//! Each test program takes what it needs of this.
#![allow(dead_code)]

pub mod json;

use std::ffi::OsStr;
use std::fs::{self, File};
use std::io::Write;
use std::path::{Path, PathBuf};
use std::process::{self, Command, Output, Stdio};
use std::sync::atomic::{AtomicUsize, Ordering};
use std::thread;

/// What a run of the command gave.
#[derive(PartialEq, Eq, Debug)]
pub struct Run {
    pub status: i32,
    pub stdout: String,
    pub stderr: String,
}

impl Run {
    fn of(output: Output) -> Run {
        let text = |bytes: Vec<u8>| String::from_utf8(bytes).expect("text");
        let status = output.status.code().expect("no signal ends it");
        Run { status, stdout: text(output.stdout), stderr: text(output.stderr) }
    }

    /// It fails with one line.
    pub fn fails(&self, line: &str) {
        assert_eq!((self.status, self.stdout.as_str()), (3, ""));
        assert_eq!(self.stderr, format!("yestrwyn: {line}\n"));
    }
}

/// The command with its words, in the folder of the repository.
pub fn command(words: impl IntoIterator<Item = impl AsRef<OsStr>>) -> Command {
    let mut command = Command::new(env!("CARGO_BIN_EXE_yestrwyn"));
    command.args(words).current_dir(root()).stdin(Stdio::null());
    command
}

/// Runs the command.
pub fn run(words: impl IntoIterator<Item = impl AsRef<OsStr>>) -> Run {
    Run::of(command(words).output().expect("it runs"))
}

/// Runs the command with something on standard input.
pub fn run_with(words: impl IntoIterator<Item = impl AsRef<OsStr>>, input: &[u8]) -> Run {
    let mut command = command(words);
    let child = command.stdin(Stdio::piped()).stdout(Stdio::piped()).stderr(Stdio::piped()).spawn();
    let mut child = child.expect("it runs");
    let mut pipe = child.stdin.take().expect("a pipe");
    thread::scope(|scope| {
        // What is not read need not be written.
        scope.spawn(move || drop(pipe.write_all(input)));
        Run::of(child.wait_with_output().expect("it ends"))
    })
}

/// Runs the command with its standard output on a device.
pub fn run_onto(words: impl IntoIterator<Item = impl AsRef<OsStr>>, device: &str) -> Run {
    let device = File::options().write(true).open(device).expect("a device");
    Run::of(
        command(words)
            .stdout(device)
            .stderr(Stdio::piped())
            .spawn()
            .and_then(|child| child.wait_with_output())
            .expect("it runs"),
    )
}

/// The folder of the repository.
pub fn root() -> PathBuf {
    Path::new(env!("CARGO_MANIFEST_DIR")).join("../..")
}

/// A stored example.
pub fn example(name: &str) -> Vec<u8> {
    fs::read(root().join("examples").join(name)).expect("an example")
}

/// The same as text.
pub fn example_text(name: &str) -> String {
    String::from_utf8(example(name)).expect("text")
}

/// A folder that is removed at the end of a test.
pub struct Folder(PathBuf);

impl Folder {
    pub fn new() -> Folder {
        static NEXT: AtomicUsize = AtomicUsize::new(0);
        let number = NEXT.fetch_add(1, Ordering::Relaxed);
        let path = std::env::temp_dir().join(format!("yestrwyn-test-{}-{number}", process::id()));
        fs::create_dir(&path).expect("a folder");
        Folder(path)
    }

    /// A place in it.
    pub fn at(&self, name: impl AsRef<Path>) -> PathBuf {
        self.0.join(name)
    }

    /// Writes a file in it.
    pub fn write(&self, name: impl AsRef<Path>, bytes: impl AsRef<[u8]>) -> PathBuf {
        let path = self.at(name);
        fs::create_dir_all(path.parent().expect("a folder")).expect("a folder");
        fs::write(&path, bytes).expect("a file");
        path
    }

    /// The names in it.
    pub fn names(&self) -> Vec<String> {
        let entries = fs::read_dir(&self.0).expect("a folder");
        let mut names: Vec<String> = entries
            .map(|entry| entry.expect("an entry").file_name().to_string_lossy().into_owned())
            .collect();
        names.sort();
        names
    }

    pub fn path(&self) -> &Path {
        &self.0
    }

    /// Its path as text.
    pub fn text(&self) -> String {
        self.0.display().to_string()
    }
}

impl Drop for Folder {
    fn drop(&mut self) {
        let _ = fs::remove_dir_all(&self.0);
    }
}
