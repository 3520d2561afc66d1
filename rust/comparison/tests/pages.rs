//! Files and tables that end, or begin, where a page ends that nobody may read: a step too far would end
//! the process.

use std::ffi::c_void;
use std::mem::size_of;
use std::slice;

use yestrwyn::exported::PROGRESS_CELLS;
use yestrwyn::exported::{board_open_numbers, board_return_numbers, board_withdraw_numbers};
use yestrwyn::exported::{check_numbers_with, Arrays, Nodes, Origins, Values};
use yestrwyn::{
    check_form_here, check_here, covers_here, merge_here, to_new_here, to_old_here, trim_here, Cells, Form,
    Tables, ENOUGH, LENGTHS,
};
use yestrwyn_comparison::pieces::{self, READOUTS};
use yestrwyn_types::limits::{BOARD_CELLS, FILE_BYTES};
use yestrwyn_types::{ANSWER_CELLS, BOARD_ANSWER_CELLS};
use yestrwyn_vectors::boards::Lent;
use yestrwyn_vectors::examples::boards::{self, Call, Script};
use yestrwyn_vectors::examples::forms::{self, Formed};
use yestrwyn_vectors::examples::merges::{self, Merge};
use yestrwyn_vectors::examples::{canonical, cases, days, deep, edges, published, trims, Example};
use yestrwyn_vectors::forms::{convert_into, damaged_form, random_form};
use yestrwyn_vectors::merges::{damaged_pair, random_pair};
use yestrwyn_vectors::trims::{damaged_trim, random_trim};
use yestrwyn_vectors::{board_script, covering_file, dated_file, random_file};

const PAGE: usize = 4096;

const NONE: i32 = 0;
const READ_AND_WRITE: i32 = 3;
const PRIVATE_AND_ANONYMOUS: i32 = 0x22;

extern "C" {
    fn mmap(at: *mut c_void, length: usize, access: i32, flags: i32, file: i32, from: i64) -> *mut c_void;
    fn mprotect(at: *mut c_void, length: usize, access: i32) -> i32;
    fn munmap(at: *mut c_void, length: usize) -> i32;
}

/// Whole pages of memory between two that nobody may read.
struct Guarded {
    start: *mut u8,
    pages: usize,
}

impl Guarded {
    /// Pages for some bytes.
    fn new(bytes: usize) -> Guarded {
        let pages = bytes.div_ceil(PAGE).max(1);
        // Safety: new memory is asked for, wherever the system has it.
        let start =
            unsafe { mmap(std::ptr::null_mut(), (pages + 2) * PAGE, NONE, PRIVATE_AND_ANONYMOUS, -1, 0) };
        assert!(start as isize != -1, "the system gives no memory");
        let start = start.cast::<u8>();
        // Safety: the pages between the first and the last of that memory.
        let status = unsafe { mprotect(start.wrapping_add(PAGE).cast(), pages * PAGE, READ_AND_WRITE) };
        assert_eq!(status, 0, "the pages between can be read");
        Guarded { start, pages }
    }

    /// The readable bytes.
    fn bytes(&mut self) -> &mut [u8] {
        // Safety: these pages were made readable and writable; they live as long as this value.
        unsafe { slice::from_raw_parts_mut(self.start.wrapping_add(PAGE), self.pages * PAGE) }
    }

    /// The same as cells.
    fn cells(&mut self) -> &mut [u16] {
        // Safety: as above; a page begins at a multiple of 4,096.
        unsafe { slice::from_raw_parts_mut(self.start.wrapping_add(PAGE).cast(), self.pages * PAGE / 2) }
    }
}

impl Drop for Guarded {
    fn drop(&mut self) {
        // Safety: the memory that `new` was given, which nothing borrows any more.
        unsafe { munmap(self.start.cast(), (self.pages + 2) * PAGE) };
    }
}

/// Where a file lies in its pages.
#[derive(Clone, Copy, Debug)]
enum Place {
    First,
    Last,
}

/// A copy of a file at one end of some pages.
fn put<'a>(pages: &'a mut Guarded, file: &[u8], place: Place) -> &'a [u8] {
    let free = pages.bytes().len() - file.len();
    let start = if let Place::First = place { 0 } else { free };
    let lent = &mut pages.bytes()[start..start + file.len()];
    lent.copy_from_slice(file);
    lent
}

/// Checks a file that lies against an unreadable page, reads it out twice and compares its first clauses, with tables that fill
/// their pages.
fn same(example: &Example, place: Place) {
    let Example { name, day, file } = example;
    let day = *day;
    let mut pages = Guarded::new(file.len());
    let lent = put(&mut pages, file, place);
    let mut guarded = LENGTHS.map(|cells| Guarded::new(2 * cells));
    let [symbols, rows, clauses, bindings] = guarded.each_mut().map(|table| table.cells());
    assert_eq!([symbols.len(), rows.len(), clauses.len(), bindings.len()], LENGTHS);
    let mut tables = Tables { symbols, rows, clauses, bindings };
    let mut second = Cells::new();
    let expected = yestrwyn_second::check_into(day, file, &mut second.lend());
    assert_eq!(check_here(day, lent, &mut tables), expected, "{name} {place:?}");
    assert_eq!(for_services(day, lent, &mut tables, place), expected.numbers(), "{name} {place:?}");
    let mut output = Guarded::new(ENOUGH);
    for readout in READOUTS {
        let (text, mut progress) = ((readout.second)(day, file, &mut second.lend()), [0; PROGRESS_CELLS]);
        (readout.proved)(day, lent, &mut tables, 0, output.bytes(), &mut progress);
        let (bytes, numbers) = pieces::expected(&pieces::units(&text), 0, ENOUGH);
        assert!(
            output.bytes().starts_with(&bytes) && progress == numbers,
            "{} of {name} {place:?}",
            readout.name
        );
    }
    for (c, d) in [(0, 0), (0, 1), (1, 0)] {
        let covering = yestrwyn_second::covers(file, c, d);
        assert_eq!(covers_here(lent, c, d, &mut tables), covering, "{c} and {d} of {name} {place:?}");
    }
    let Tables { symbols, rows, clauses, bindings } = tables;
    let cells = [&second.symbols, &second.rows, &second.clauses, &second.bindings];
    assert!([symbols, rows, clauses, bindings].into_iter().eq(cells), "{name} {place:?}");
}

/// The check for services with a workspace of which each array lies against an unreadable page.
fn for_services(day: u16, file: &[u8], tables: &mut Tables<'_>, place: Place) -> [u16; ANSWER_CELLS] {
    let mut guarded = [size_of::<Nodes>(), size_of::<Origins>(), size_of::<Values>()].map(Guarded::new);
    let [nodes, origins, values] = guarded.each_mut().map(|array| array.cells());
    let (nodes, origins, values) = (at(nodes, place), at(origins, place), at(values, place));
    let mut numbers = [0; ANSWER_CELLS];
    check_numbers_with(day, file, tables, &mut Arrays { nodes, origins, values }, &mut numbers);
    numbers
}

/// An array at one end of some cells.
fn at<const LENGTH: usize>(cells: &mut [u16], place: Place) -> &mut [u16; LENGTH] {
    let array = match place {
        Place::First => cells.first_chunk_mut(),
        Place::Last => cells.last_chunk_mut(),
    };
    array.expect("so many cells")
}

#[test]
fn files_and_tables_beside_unreadable_pages() {
    let compare = || {
        let mut examples = cases::examples();
        examples.extend(published());
        // The longest file fills its pages and lies against unreadable ones on both sides.
        examples.extend(edges::examples());
        examples.extend(deep::examples());
        examples.extend(days::examples());
        examples.extend(canonical::examples());
        for example in examples {
            same(&example, Place::Last);
            same(&example, Place::First);
        }
        for seed in 0..200 {
            let (day, dated) = dated_file(seed);
            same(&Example::new(&format!("seed {seed}"), random_file(seed)), Place::Last);
            same(&Example::new(&format!("covering {seed}"), covering_file(seed)), Place::Last);
            same(&Example::on(day, &format!("dated {seed}"), dated), Place::Last);
        }
    };
    yestrwyn::with_stack(compare).expect("a thread");
}

/// Merges two files that lie against unreadable pages, with tables and an output that fill their pages.
fn same_merge(pair: &Merge, place: Place) {
    let Merge { name, first, second } = pair;
    let mut pages = [first, second].map(|file| Guarded::new(file.len()));
    let [one, other] = &mut pages;
    let lent = [put(one, first, place), put(other, second, place)];
    let mut guarded = LENGTHS.map(|cells| Guarded::new(2 * cells));
    let [symbols, rows, clauses, bindings] = guarded.each_mut().map(|table| table.cells());
    let mut tables = Tables { symbols, rows, clauses, bindings };
    let (mut output, mut theirs) = (Guarded::new(FILE_BYTES), vec![0; FILE_BYTES]);
    assert_eq!(output.bytes().len(), FILE_BYTES);
    let right = yestrwyn_second::merge_into(first, second, &mut Cells::new().lend(), &mut theirs);
    assert_eq!(merge_here(lent[0], lent[1], &mut tables, output.bytes()), right, "{name} {place:?}");
    assert!(output.bytes() == theirs, "{name} {place:?}");
}

#[test]
fn merges_beside_unreadable_pages() {
    let compare = || {
        let named = merges::examples().into_iter();
        for pair in named.chain((0..150).map(random_pair)).chain((0..100).map(damaged_pair)) {
            same_merge(&pair, Place::Last);
            same_merge(&pair, Place::First);
        }
    };
    yestrwyn::with_stack(compare).expect("a thread");
}

/// Checks and converts a file of a form that lies against an unreadable page, with tables and an output that fill their pages.
fn same_form(Formed { name, form, day, file }: &Formed, place: Place) {
    let mut pages = Guarded::new(file.len());
    let lent = put(&mut pages, file, place);
    let mut guarded = LENGTHS.map(|cells| Guarded::new(2 * cells));
    let [symbols, rows, clauses, bindings] = guarded.each_mut().map(|table| table.cells());
    let mut tables = Tables { symbols, rows, clauses, bindings };
    let answer = yestrwyn_second::check_form(*form, *day, file);
    assert_eq!(check_form_here(*form, *day, lent, &mut tables), answer, "{name} {place:?}");
    let (mut output, mut theirs) = (Guarded::new(FILE_BYTES), vec![0; FILE_BYTES]);
    let right = convert_into(*form, file, &mut Cells::new().lend(), &mut theirs);
    let converted = match form {
        Form::Old => to_new_here(lent, &mut tables, output.bytes()),
        Form::New => to_old_here(lent, &mut tables, output.bytes()),
    };
    assert_eq!(converted, right, "{name} {place:?}");
    assert!(output.bytes() == theirs, "{name} {place:?}");
}

#[test]
fn both_forms_beside_unreadable_pages() {
    let compare = || {
        let random = Form::ALL.into_iter().flat_map(|form| {
            (0..100).flat_map(move |seed| [random_form(form, seed), damaged_form(form, seed)])
        });
        for file in forms::examples().into_iter().chain(random) {
            same_form(&file, Place::Last);
            same_form(&file, Place::First);
        }
    };
    yestrwyn::with_stack(compare).expect("a thread");
}

/// Trims a file that lies against an unreadable page, with tables and an output that fill their pages.
fn same_trim(Example { name, day, file }: &Example, place: Place) {
    let mut pages = Guarded::new(file.len());
    let lent = put(&mut pages, file, place);
    let mut guarded = LENGTHS.map(|cells| Guarded::new(2 * cells));
    let [symbols, rows, clauses, bindings] = guarded.each_mut().map(|table| table.cells());
    let mut tables = Tables { symbols, rows, clauses, bindings };
    let (mut output, mut theirs) = (Guarded::new(FILE_BYTES), vec![0; FILE_BYTES]);
    let right = yestrwyn_second::trim_into(*day, file, &mut Cells::new().lend(), &mut theirs);
    assert_eq!(trim_here(*day, lent, &mut tables, output.bytes()), right, "{name} {place:?}");
    assert!(output.bytes() == theirs, "{name} {place:?}");
}

#[test]
fn trims_beside_unreadable_pages() {
    let compare = || {
        let random = (0..150).flat_map(|seed| [random_trim(seed), damaged_trim(seed)]);
        for file in trims::examples().into_iter().chain(random) {
            same_trim(&file, Place::Last);
            same_trim(&file, Place::First);
        }
    };
    yestrwyn::with_stack(compare).expect("a thread");
}

/// Opens a board and runs its calls, with file and board against unreadable pages and tables that fill theirs.
fn same_board(script: &Script, place: Place) {
    let Script { name, day, file, calls, .. } = script;
    let mut pages = Guarded::new(file.len());
    let lent = put(&mut pages, file, place);
    let mut guarded = LENGTHS.map(|cells| Guarded::new(2 * cells));
    let [symbols, rows, clauses, bindings] = guarded.each_mut().map(|table| table.cells());
    let mut tables = Tables { symbols, rows, clauses, bindings };
    let mut board_pages = Guarded::new(2 * BOARD_CELLS);
    let board: &mut [u16; BOARD_CELLS] = at(board_pages.cells(), place);
    let (mut second, mut answer) = (Lent::new(script), [0; BOARD_ANSWER_CELLS]);
    board_open_numbers(*day, lent, &mut tables, board, &mut answer);
    assert_eq!(answer, second.open(script).numbers(), "{name} {place:?}");
    for &call in calls {
        let run = if let Call::Withdraw(_) = call { board_withdraw_numbers } else { board_return_numbers };
        run(lent, tables.clauses, board, call.clause(), &mut answer);
        assert_eq!(answer, second.call(file, call).numbers(), "{name} {place:?} at {call:?}");
    }
    assert!(*board == second.board[..], "{name} {place:?}");
}

#[test]
fn boards_beside_unreadable_pages() {
    let compare = || {
        let named = boards::examples().into_iter().filter(|script| script.cells == BOARD_CELLS);
        for script in named.chain((0..150).map(board_script)) {
            same_board(&script, Place::Last);
            same_board(&script, Place::First);
        }
    };
    yestrwyn::with_stack(compare).expect("a thread");
}
