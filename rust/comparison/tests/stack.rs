//! The safe functions bring their own stack: on a thread that has next to none they answer every file.

use std::io;
use std::thread::Builder;

use yestrwyn::limits::FILE_BYTES;
use yestrwyn::{
    canonical_readout, canonical_readout_piece, write_canonical_readout, write_canonical_readout_here,
};
use yestrwyn::{check, check_into, covers, covers_into, merge, merge_into, readout, readout_piece};
use yestrwyn::{
    check_form, check_form_into, to_new, to_new_into, to_old, to_old_into, trim, trim_into, Form,
};
use yestrwyn::{write_readout, write_readout_here, Board, Cells, Rest, Tables, Workspace, ENOUGH};
use yestrwyn_second::board::Afresh;
use yestrwyn_vectors::examples::{deep, trims, Example};
use yestrwyn_vectors::widened;

/// Runs something on a thread of 128 KiB. A test's own thread has 2 MiB, and the check alone takes more
/// than 1 MiB for any file.
fn on_a_small_thread(run: impl FnOnce() + Send) {
    std::thread::scope(|scope| {
        let thread = Builder::new().stack_size(128 << 10).spawn_scoped(scope, run).expect("a thread");
        thread.join().expect("it ends");
    });
}

#[test]
fn the_deepest_files_on_a_small_thread() {
    for example in deep::examples() {
        let (file, mut cells, mut second) = (&example.file, Cells::new(), Cells::new());
        let expected = yestrwyn_second::check_into(0, file, &mut second.lend());
        let text = yestrwyn_second::readout(0, file);
        let canonical = yestrwyn_second::canonical_readout(0, file);
        let covering = yestrwyn_second::covers(file, 0, 0);
        let merged = yestrwyn_second::merge(&[], file);
        let mut afresh = Afresh::open(0, file);
        let answer = afresh.as_ref().map(Afresh::answer).map_err(|refusal| *refusal);
        let after = afresh.as_mut().map(|board| board.withdraw(1).result()).map_err(|refusal| *refusal);
        on_a_small_thread(|| {
            assert_eq!(check(0, file).expect("an answer"), expected);
            assert_eq!(check_into(0, file, &mut cells.lend()).expect("an answer"), expected);
            assert_eq!(Workspace::new().check(0, file).expect("an answer"), expected);
            assert!(readout(0, file).expect("a readout") == text);
            let mut output = vec![0; ENOUGH.max(text.len())];
            let piece = readout_piece(0, file, &mut cells.lend(), 0, &mut output).expect("a piece");
            assert!(piece.rest == Rest::Complete && output[..piece.written] == text);
            assert!(canonical_readout(0, file).expect("a readout") == canonical);
            let piece = canonical_readout_piece(0, file, &mut cells.lend(), 0, &mut output).expect("a piece");
            assert!(piece.rest == Rest::Complete && output[..piece.written] == canonical);
            assert_eq!(merge(&[], file).expect("an answer"), merged);
            let length = merge_into(&[], file, &mut cells.lend(), &mut vec![0; FILE_BYTES])
                .expect("an answer")
                .length();
            assert_eq!(length, merged.as_ref().ok().map(Vec::len));
            assert_eq!(covers(file, 0, 0).expect("an answer"), covering);
            assert_eq!(covers_into(file, 0, 0, &mut cells.lend()).expect("an answer"), covering);
            let mut opened = Board::open(0, file.as_slice()).expect("an answer");
            assert_eq!(opened.as_ref().map(Board::answer).map_err(|refusal| *refusal), answer);
            // A call runs on this thread, and takes little of its stack.
            assert_eq!(opened.as_mut().map(|board| board.withdraw(1)).map_err(|refusal| *refusal), after);
        });
        assert!(cells == second, "{}", example.name);
    }
}

/// The same of the functions for files of either form.
#[test]
fn both_forms_of_the_deepest_files_on_a_small_thread() {
    for example in deep::examples() {
        let (old, new, mut cells) = (&example.file, &widened(&example.file), Cells::new());
        let answers = [(Form::Old, old), (Form::New, new)]
            .map(|(form, file)| yestrwyn_second::check_form(form, 0, file));
        let [there, back] = [yestrwyn_second::to_new(old), yestrwyn_second::to_old(new)];
        on_a_small_thread(|| {
            for ((form, file), answer) in [(Form::Old, old), (Form::New, new)].into_iter().zip(answers) {
                assert_eq!(check_form(form, 0, file).expect("an answer"), answer);
                assert_eq!(check_form_into(form, 0, file, &mut cells.lend()).expect("an answer"), answer);
            }
            assert_eq!(to_new(old).expect("an answer"), there);
            assert_eq!(to_old(new).expect("an answer"), back);
            let mut output = vec![0; FILE_BYTES];
            let length = to_new_into(old, &mut cells.lend(), &mut output).expect("an answer").length();
            assert_eq!(length, there.as_ref().ok().map(Vec::len));
            let length = to_old_into(new, &mut cells.lend(), &mut output).expect("an answer").length();
            assert_eq!(length, back.as_ref().ok().map(Vec::len));
        });
    }
}

/// The same of the trim, also of files that are accepted.
#[test]
fn trims_of_the_deepest_files_on_a_small_thread() {
    for Example { name, day, file } in deep::examples().into_iter().chain(trims::examples()) {
        let (mut cells, right) = (Cells::new(), yestrwyn_second::trim(day, &file));
        on_a_small_thread(|| {
            assert_eq!(trim(day, &file).expect("an answer"), right, "{name}");
            let mut output = vec![0; FILE_BYTES];
            let length = trim_into(day, &file, &mut cells.lend(), &mut output).expect("an answer").length();
            assert_eq!(length, right.as_ref().ok().map(Vec::len), "{name}");
        });
    }
}

/// A writer that takes some bytes and no more.
struct Full(usize);

impl io::Write for Full {
    fn write(&mut self, bytes: &[u8]) -> io::Result<usize> {
        if self.0 < bytes.len() {
            return Err(io::Error::other("full"));
        }
        self.0 -= bytes.len();
        Ok(bytes.len())
    }

    fn flush(&mut self) -> io::Result<()> {
        Ok(())
    }
}

/// A readout is written to what has room for all of it, and is an error where a byte is missing.
fn room_for_all(file: &[u8], length: usize, write: fn(u16, &[u8], &mut Full) -> io::Result<()>) {
    assert!(write(0, file, &mut Full(length)).is_ok());
    assert!(write(0, file, &mut Full(length - 1)).is_err());
}

#[test]
fn a_readout_that_cannot_be_written_is_an_error() {
    let file = deep::derivation(100);
    room_for_all(&file, readout(0, &file).expect("a readout").len(), write_readout);
    room_for_all(&file, canonical_readout(0, &file).expect("a readout").len(), write_canonical_readout);
}

/// A readout written with an output that is lent for its pieces.
type WrittenHere = fn(u16, &[u8], &mut Tables<'_>, &mut [u8], &mut Vec<u8>) -> io::Result<()>;

/// With every room the readout of a file is written whole or is an error.
fn whole_or_an_error(file: &[u8], text: &[u8], write: WrittenHere) {
    let longest = text.split_inclusive(|&byte| byte == b'\n').map(<[u8]>::len).max().unwrap_or(0);
    for room in [0, 1, longest - 1, longest, longest + 1, text.len()] {
        let (mut cells, mut output, mut out) = (Cells::new(), vec![0; room], Vec::new());
        let run = || write(0, file, &mut cells.lend(), &mut output, &mut out);
        let written = yestrwyn::with_stack(run).expect("a thread");
        // The first line is handed on with that of clause 0, and is shorter than the longest here.
        assert_eq!(written.is_ok(), room >= longest, "{room} bytes, {written:?}");
        assert!(text.starts_with(&out) && (written.is_err() || out == text));
    }
}

#[test]
fn a_readout_that_is_cut_is_an_error() {
    let file = deep::derivation(100);
    whole_or_an_error(&file, &yestrwyn_second::readout(0, &file), write_readout_here);
    let canonical = yestrwyn_second::canonical_readout(0, &file);
    whole_or_an_error(&file, &canonical, write_canonical_readout_here);
}

#[test]
fn a_panic_comes_through() {
    let caught = std::panic::catch_unwind(|| yestrwyn::with_stack(|| panic!("on purpose")));
    assert!(caught.is_err());
}
