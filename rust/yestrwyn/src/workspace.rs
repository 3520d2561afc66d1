//! A workspace that is kept between files.

use std::io;

use yestrwyn_types::{Answer, Cells, Tables, ANSWER_CELLS};

use crate::exported::{check_numbers_with, Arrays, Nodes, Origins, Values};
use crate::stack::with_stack;

/// What a check works with, made once and kept between files: the check for services.
///
/// The functions outside fill arrays of 1.2 MB for each file; these take the workspace as the last file left
/// it, and check a small file several times as fast. Answers and tables are the same. A workspace serves one
/// file at a time; threads that check at the same time have one each.
///
/// ```no_run
/// # fn files() -> Vec<Vec<u8>> { Vec::new() }
/// // Many files on one thread with stack enough.
/// let mut workspace = yestrwyn::Workspace::new();
/// let accepted = yestrwyn::with_stack(|| {
///     files().iter().filter(|file| workspace.check_here(0, file).verdict.is_accepted()).count()
/// })?;
/// # std::io::Result::Ok(())
/// ```
pub struct Workspace {
    nodes: Box<Nodes>,
    origins: Box<Origins>,
    values: Box<Values>,
    cells: Cells,
}

impl Workspace {
    /// A workspace with four tables, some 1.3 MB on the heap.
    pub fn new() -> Workspace {
        Workspace { nodes: zeros(), origins: zeros(), values: zeros(), cells: Cells::new() }
    }

    /// Checks a file on a day, on a thread of its own with stack enough for every file. An error is the system's,
    /// where it gives no thread. To make the thread takes longer than to check a small file: a service has
    /// one thread for many files, and calls [`check_here`](Workspace::check_here) there.
    pub fn check(&mut self, day: u16, file: &[u8]) -> io::Result<Answer> {
        with_stack(|| self.check_here(day, file))
    }

    /// The same with tables that the caller lends in place of the workspace's own: afterwards they hold what
    /// stands. Tables that are too short are refused with reason 2.
    pub fn check_into(&mut self, day: u16, file: &[u8], tables: &mut Tables<'_>) -> io::Result<Answer> {
        with_stack(|| self.check_into_here(day, file, tables))
    }

    /// Checks a file on a day, on the caller's own stack, of which 8 MiB ([`STACK`](crate::STACK)) must be left.
    ///
    /// A check that runs out of stack ends the process. The arrays are not on the stack here, so that an
    /// ordinary file takes some 24 KiB of it; but a file can be made that takes 2.6 MiB, and how much a call
    /// takes is measured, not proved. A thread of Rust has 2 MiB unless told otherwise: see [`with_stack`].
    pub fn check_here(&mut self, day: u16, file: &[u8]) -> Answer {
        let Workspace { nodes, origins, values, cells } = self;
        run(day, file, &mut cells.lend(), &mut Arrays { nodes, origins, values })
    }

    /// The same with tables that the caller lends.
    pub fn check_into_here(&mut self, day: u16, file: &[u8], tables: &mut Tables<'_>) -> Answer {
        run(day, file, tables, &mut self.lend())
    }

    /// The workspace's own tables: what stands of the last file that was checked without tables of the
    /// caller's. A file that is refused by its length (reason 1) leaves them as they were.
    pub fn cells(&self) -> &Cells {
        &self.cells
    }

    /// The arrays, to be lent to [`check_numbers_with`].
    pub fn lend(&mut self) -> Arrays<'_> {
        let Workspace { nodes, origins, values, .. } = self;
        Arrays { nodes, origins, values }
    }
}

impl Default for Workspace {
    fn default() -> Workspace {
        Workspace::new()
    }
}

/// The check with its answer as a value.
fn run(day: u16, file: &[u8], tables: &mut Tables<'_>, arrays: &mut Arrays<'_>) -> Answer {
    let mut numbers = [0; ANSWER_CELLS];
    check_numbers_with(day, file, tables, arrays, &mut numbers);
    Answer::from_numbers(numbers)
}

/// An array of zeros, made on the heap: a thread may not have stack enough for it.
fn zeros<const LENGTH: usize>() -> Box<[u16; LENGTH]> {
    let array = vec![0; LENGTH].into_boxed_slice().try_into();
    array.expect("a slice of this length is such an array")
}
