//! A thread with stack enough for every file.

use std::io;
use std::panic;
use std::thread::{self, Builder};

/// The stack that a check may need. Ordinary files take less than 1.5 MiB and the deepest that we know
/// of 4 MiB, and half a MiB more for the readouts; how much a call takes is measured and not proved, so the rule is twice that.
pub const STACK: usize = 8 << 20;

/// Runs something on a thread of its own with [`STACK`] bytes of stack, and waits for it. It may borrow
/// from the caller. An error is the system's, where it gives no thread.
///
/// ```no_run
/// # fn files() -> Vec<Vec<u8>> { Vec::new() }
/// // Many files on one such thread, with one set of tables.
/// let mut cells = yestrwyn::Cells::new();
/// let accepted = yestrwyn::with_stack(|| {
///     let mut check = |file: &Vec<u8>| yestrwyn::check_here(0, file, &mut cells.lend());
///     files().iter().filter(|file| check(file).verdict.is_accepted()).count()
/// })?;
/// # std::io::Result::Ok(())
/// ```
pub fn with_stack<T: Send>(run: impl FnOnce() -> T + Send) -> io::Result<T> {
    thread::scope(|scope| {
        let thread = Builder::new().stack_size(STACK).spawn_scoped(scope, run)?;
        thread.join().or_else(|panic| panic::resume_unwind(panic))
    })
}
