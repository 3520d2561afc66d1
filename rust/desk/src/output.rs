//! Standard output.

use std::io::{self, BufWriter, Stdout, Write};
use std::ops::ControlFlow;

use crate::failure::Failure;
use crate::input::cause;

/// Standard output, with room to gather what is written. Once its reader is gone, what is written is dropped without a word: the
/// reader has had enough, and the exit status says the rest. Any other failure is said once.
pub struct Output {
    writer: BufWriter<Stdout>,
    closed: bool,
}

impl Output {
    /// Standard output.
    pub fn standard() -> Output {
        Output { writer: BufWriter::with_capacity(1 << 16, io::stdout()), closed: false }
    }

    /// Writes a text, or a file's bytes.
    pub fn print(&mut self, bytes: impl AsRef<[u8]>) -> Result<(), Failure> {
        self.write_all(bytes.as_ref()).map_err(|error| failure(&error))
    }

    /// Writes one of many texts. A failure is kept, and ends the rest.
    pub fn print_or_break(&mut self, bytes: impl AsRef<[u8]>, kept: &mut Option<Failure>) -> ControlFlow<()> {
        match self.print(bytes) {
            Ok(()) => ControlFlow::Continue(()),
            Err(failure) => {
                *kept = Some(failure);
                ControlFlow::Break(())
            }
        }
    }

    /// Sends on what was gathered.
    pub fn finish(&mut self) -> Result<(), Failure> {
        self.flush().map_err(|error| failure(&error))
    }

    /// What an attempt to write gives: where the reader is gone, as if it had been written.
    fn settle<T>(&mut self, attempt: io::Result<T>, written: T) -> io::Result<T> {
        self.closed =
            self.closed || attempt.as_ref().is_err_and(|error| error.kind() != io::ErrorKind::Interrupted);
        match attempt {
            Err(error) if error.kind() == io::ErrorKind::BrokenPipe => Ok(written),
            other => other,
        }
    }
}

impl Write for Output {
    fn write(&mut self, bytes: &[u8]) -> io::Result<usize> {
        if self.closed {
            return Ok(bytes.len());
        }
        let attempt = self.writer.write(bytes);
        self.settle(attempt, bytes.len())
    }

    fn flush(&mut self) -> io::Result<()> {
        if self.closed {
            return Ok(());
        }
        let attempt = self.writer.flush();
        self.settle(attempt, ())
    }
}

/// Why standard output was not written to.
pub fn failure(error: &io::Error) -> Failure {
    Failure::of("standard output", cause(error))
}
