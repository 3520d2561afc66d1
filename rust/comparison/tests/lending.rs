//! Everything is lent from the middle of larger buffers, and both sides of every part are watched.

use std::mem::size_of;

use yestrwyn::exported::{board_open_numbers, board_return_numbers, board_withdraw_numbers};
use yestrwyn::exported::{
    check_form_numbers, check_numbers, check_numbers_with, Arrays, Nodes, Origins, Values,
};
use yestrwyn::exported::{covers_numbers, merge_numbers, trim_numbers, PROGRESS_CELLS};
use yestrwyn::{Tables, LENGTHS};
use yestrwyn_comparison::boards::script_of;
use yestrwyn_comparison::compare::day_and_file_of;
use yestrwyn_comparison::covers::Clauses;
use yestrwyn_comparison::forms::{convert_numbers, form_of};
use yestrwyn_comparison::merges::pair_of;
use yestrwyn_comparison::pieces::{Readout, READOUTS};
use yestrwyn_comparison::trims::trim_of;
use yestrwyn_types::limits::{BOARD_CELLS, FILE_BYTES};
use yestrwyn_types::{
    Cells, ANSWER_CELLS, BOARD_ANSWER_CELLS, CONVERTED_CELLS, COVERING_CELLS, MERGED_CELLS, TRIMMED_CELLS,
};
use yestrwyn_vectors::boards::Lent;
use yestrwyn_vectors::examples::boards::{self, Call, Script};
use yestrwyn_vectors::examples::forms::{self, Formed};
use yestrwyn_vectors::examples::merges::Merge;
use yestrwyn_vectors::examples::{
    canonical, cases, days, edges, merges, published, refusals, trims, Example,
};
use yestrwyn_vectors::forms::convert_into;
use yestrwyn_vectors::random::SplitMix64;

/// Cells before, between and after the parts.
const MARGIN: usize = 40;

/// Cells of each of the five parts: the tables and the answer.
const PARTS: [usize; 5] = [LENGTHS[0], LENGTHS[1], LENGTHS[2], LENGTHS[3], ANSWER_CELLS];

/// What a cell of the buffer holds before a call.
fn mark(place: usize) -> u16 {
    0x5a00 ^ place as u16
}

/// One buffer for all five parts, with margins around each.
fn buffer() -> Vec<u16> {
    let length = MARGIN + PARTS.iter().map(|part| part + MARGIN).sum::<usize>();
    (0..length).map(mark).collect()
}

/// The five parts of a buffer.
fn parts(buffer: &mut [u16]) -> [&mut [u16]; 5] {
    let mut rest = buffer;
    PARTS.map(|length| {
        let (part, after) = std::mem::take(&mut rest)[MARGIN..].split_at_mut(length);
        rest = after;
        part
    })
}

/// Are all margins as they were?
fn margins_hold(buffer: &[u16]) -> bool {
    let mut start = 0;
    PARTS.iter().chain([&0]).all(|part| {
        let margin = start..start + MARGIN;
        start = margin.end + part;
        margin.clone().all(|place| buffer[place] == mark(place))
    })
}

/// Files of every kind, each with a day.
fn files() -> Vec<(u16, Vec<u8>)> {
    let mut examples = cases::examples();
    examples.extend(published());
    examples.extend(edges::examples());
    examples.extend(refusals::examples());
    examples.extend(days::examples());
    let named = examples.into_iter().map(|example| (example.day, example.file));
    named.chain((0..300).map(day_and_file_of)).collect()
}

/// A file from the middle of a larger buffer too.
fn in_the_middle(file: &[u8]) -> Vec<u8> {
    [&[0xff; 64], file, &[0xff; 64]].concat()
}

#[test]
fn the_check_stays_inside_what_it_was_lent() {
    let check = || {
        for (day, file) in files() {
            let lent = in_the_middle(&file);
            let mut buffer = buffer();
            let [symbols, rows, clauses, bindings, answer] = parts(&mut buffer);
            let mut tables = Tables { symbols, rows, clauses, bindings };
            check_numbers(day, &lent[64..64 + file.len()], &mut tables, answer);
            assert!(margins_hold(&buffer));
            let mut cells = Cells { symbols: vec![], rows: vec![], clauses: vec![], bindings: vec![] };
            let [symbols, rows, clauses, bindings, answer] = parts(&mut buffer);
            let second = yestrwyn_second::check_into(day, &file, &mut before(&mut cells).lend());
            assert_eq!(answer, second.numbers());
            assert!([symbols, rows, clauses, bindings].into_iter().eq([
                &cells.symbols,
                &cells.rows,
                &cells.clauses,
                &cells.bindings
            ]));
        }
    };
    yestrwyn::with_stack(check).expect("a thread");
}

/// An array from the middle of a larger buffer, with dirt in it.
struct Watched(Vec<u16>);

impl Watched {
    fn new(length: usize) -> Watched {
        Watched((0..length + 2 * MARGIN).map(mark).collect())
    }

    /// The array between the margins.
    fn array<const LENGTH: usize>(&mut self) -> &mut [u16; LENGTH] {
        let between = &mut self.0[MARGIN..MARGIN + LENGTH];
        between.try_into().expect("an array of this length")
    }

    /// Are both margins as they were?
    fn holds(&self) -> bool {
        let end = self.0.len() - MARGIN;
        (0..MARGIN).chain(end..end + MARGIN).all(|place| self.0[place] == mark(place))
    }
}

#[test]
fn the_check_for_services_stays_inside_what_it_was_lent() {
    let check = || {
        let mut watched = [size_of::<Nodes>(), size_of::<Origins>(), size_of::<Values>()]
            .map(|bytes| Watched::new(bytes / 2));
        for (day, file) in files() {
            let lent = in_the_middle(&file);
            let mut buffer = buffer();
            let [symbols, rows, clauses, bindings, answer] = parts(&mut buffer);
            let mut tables = Tables { symbols, rows, clauses, bindings };
            let [nodes, origins, values] = &mut watched;
            let mut arrays =
                Arrays { nodes: nodes.array(), origins: origins.array(), values: values.array() };
            check_numbers_with(day, &lent[64..64 + file.len()], &mut tables, &mut arrays, answer);
            assert!(margins_hold(&buffer) && watched.iter().all(Watched::holds));
            let [.., answer] = parts(&mut buffer);
            assert_eq!(answer, yestrwyn_second::check(day, &file).numbers());
        }
    };
    yestrwyn::with_stack(check).expect("a thread");
}

/// Cells that hold what the parts of a buffer hold before a call.
fn before(cells: &mut Cells) -> &mut Cells {
    let mut buffer = buffer();
    let [symbols, rows, clauses, bindings, _] = parts(&mut buffer).map(|part| part.to_vec());
    *cells = Cells { symbols, rows, clauses, bindings };
    cells
}

/// A piece of a readout with everything lent from the middle of larger buffers.
fn readout_in_the_middle(readout: Readout, day: u16, file: &[u8], room: usize, text: &[u8]) {
    let lent = in_the_middle(file);
    let mut buffer = buffer();
    let [symbols, rows, clauses, bindings, _] = parts(&mut buffer);
    let mut tables = Tables { symbols, rows, clauses, bindings };
    let mut output = vec![0xa5; room + 64];
    let mut progress = [7; PROGRESS_CELLS + 4];
    (readout.proved)(
        day,
        &lent[64..64 + file.len()],
        &mut tables,
        0,
        &mut output[32..32 + room],
        &mut progress[2..2 + PROGRESS_CELLS],
    );
    let written = progress[3] as usize;
    assert!(margins_hold(&buffer));
    assert_eq!((progress[..2].to_vec(), progress[5..].to_vec()), (vec![7; 2], vec![7; 2]));
    assert!(written <= room && text.starts_with(&output[32..32 + written]));
    let around = output[..32].iter().chain(&output[32 + written..]);
    assert!(around.into_iter().all(|&byte| byte == 0xa5));
}

#[test]
fn the_readouts_stay_inside_what_they_were_lent() {
    let read = || {
        let named = canonical::examples().into_iter().map(|example| (example.day, example.file));
        for (day, file) in files().into_iter().chain(named) {
            for readout in READOUTS {
                let text = (readout.second)(day, &file, &mut Cells::new().lend());
                for room in [0, 1, text.len().saturating_sub(1), text.len(), text.len() + 9] {
                    readout_in_the_middle(readout, day, &file, room, &text);
                }
            }
        }
    };
    yestrwyn::with_stack(read).expect("a thread");
}

#[test]
fn covers_stays_inside_what_it_was_lent() {
    let compare = || {
        let mut random = SplitMix64::new(3);
        for (_, file) in files() {
            let lent = in_the_middle(&file);
            for [c, d] in [Clauses::of(&file).some_two(&mut random), [0, 0]] {
                let mut buffer = buffer();
                let [symbols, rows, clauses, bindings, _] = parts(&mut buffer);
                let mut tables = Tables { symbols, rows, clauses, bindings };
                let mut answer = [7; COVERING_CELLS + 4];
                let middle = 2..2 + COVERING_CELLS;
                covers_numbers(&lent[64..64 + file.len()], c, d, &mut tables, &mut answer[middle.clone()]);
                assert!(margins_hold(&buffer));
                assert_eq!(answer[middle], yestrwyn_second::covers(&file, c, d).numbers());
                assert_eq!((&answer[..2], &answer[2 + COVERING_CELLS..]), (&[7; 2][..], &[7; 2][..]));
            }
        }
    };
    yestrwyn::with_stack(compare).expect("a thread");
}

/// Merges a pair with everything lent from the middle of larger buffers.
fn merge_in_the_middle(pair: &Merge) {
    let [first, second] = [&pair.first, &pair.second].map(|file| in_the_middle(file));
    let mut buffer = buffer();
    let [symbols, rows, clauses, bindings, _] = parts(&mut buffer);
    let mut tables = Tables { symbols, rows, clauses, bindings };
    let (mut output, mut answer) = (vec![0xa5; 32 + FILE_BYTES + 32], [7; MERGED_CELLS + 4]);
    let middle = 2..2 + MERGED_CELLS;
    merge_numbers(
        &first[64..64 + pair.first.len()],
        &second[64..64 + pair.second.len()],
        &mut tables,
        &mut output[32..32 + FILE_BYTES],
        &mut answer[middle.clone()],
    );
    assert!(margins_hold(&buffer), "{}", pair.name);
    let mut theirs = vec![0xa5; FILE_BYTES];
    let right = yestrwyn_second::merge_into(
        &pair.first,
        &pair.second,
        &mut before(&mut Cells::new()).lend(),
        &mut theirs,
    );
    assert_eq!(answer[middle], right.numbers(), "{}", pair.name);
    assert_eq!((&answer[..2], &answer[2 + MERGED_CELLS..]), (&[7; 2][..], &[7; 2][..]));
    let (output, after) = output.split_at(32 + FILE_BYTES);
    assert!(output[32..] == theirs, "{}", pair.name);
    assert!(output[..32].iter().chain(after).all(|&byte| byte == 0xa5), "{}", pair.name);
}

#[test]
fn merge_stays_inside_what_it_was_lent() {
    let merge = || {
        merges::examples()
            .into_iter()
            .chain((0..300).map(pair_of))
            .for_each(|pair| merge_in_the_middle(&pair))
    };
    yestrwyn::with_stack(merge).expect("a thread");
}

/// Checks and converts a file of a form with everything lent from the middle of larger buffers.
fn form_in_the_middle(Formed { name, form, day, file }: &Formed) {
    let lent = in_the_middle(file);
    let middle = &lent[64..64 + file.len()];
    let mut checked = buffer();
    let [symbols, rows, clauses, bindings, answer] = parts(&mut checked);
    let mut tables = Tables { symbols, rows, clauses, bindings };
    check_form_numbers(form.number(), *day, middle, &mut tables, answer);
    assert_eq!(answer, yestrwyn_second::check_form(*form, *day, file).numbers(), "{name}");
    assert!(margins_hold(&checked), "{name}");
    let mut buffer = buffer();
    let [symbols, rows, clauses, bindings, _] = parts(&mut buffer);
    let mut tables = Tables { symbols, rows, clauses, bindings };
    let (mut output, mut answer) = (vec![0xa5; 32 + FILE_BYTES + 32], [7; CONVERTED_CELLS + 4]);
    let numbers = &mut answer[2..2 + CONVERTED_CELLS];
    convert_numbers(*form)(middle, &mut tables, &mut output[32..32 + FILE_BYTES], numbers);
    let mut theirs = vec![0xa5; FILE_BYTES];
    let right = convert_into(*form, file, &mut before(&mut Cells::new()).lend(), &mut theirs).numbers();
    assert_eq!(numbers, right, "{name}");
    assert_eq!((&answer[..2], &answer[2 + CONVERTED_CELLS..]), (&[7; 2][..], &[7; 2][..]));
    let (output, after) = output.split_at(32 + FILE_BYTES);
    assert!(margins_hold(&buffer) && output[32..] == theirs, "{name}");
    assert!(output[..32].iter().chain(after).all(|&byte| byte == 0xa5), "{name}");
    // The file is only read.
    assert!(lent == in_the_middle(file), "{name}");
}

#[test]
fn both_forms_stay_inside_what_they_were_lent() {
    let run = || {
        forms::examples().into_iter().chain((0..300).map(form_of)).for_each(|file| form_in_the_middle(&file))
    };
    yestrwyn::with_stack(run).expect("a thread");
}

/// Trims a file with everything lent from the middle of larger buffers.
fn trim_in_the_middle(Example { name, day, file }: &Example) {
    let lent = in_the_middle(file);
    let middle = &lent[64..64 + file.len()];
    let mut buffer = buffer();
    let [symbols, rows, clauses, bindings, _] = parts(&mut buffer);
    let mut tables = Tables { symbols, rows, clauses, bindings };
    let (mut output, mut answer) = (vec![0xa5; 32 + FILE_BYTES + 32], [7; TRIMMED_CELLS + 4]);
    let numbers = &mut answer[2..2 + TRIMMED_CELLS];
    trim_numbers(*day, middle, &mut tables, &mut output[32..32 + FILE_BYTES], numbers);
    let mut theirs = vec![0xa5; FILE_BYTES];
    let mut cells = Cells::new();
    let right = yestrwyn_second::trim_into(*day, file, &mut before(&mut cells).lend(), &mut theirs).numbers();
    assert_eq!(numbers, right, "{name}");
    assert_eq!((&answer[..2], &answer[2 + TRIMMED_CELLS..]), (&[7; 2][..], &[7; 2][..]));
    let (output, after) = output.split_at(32 + FILE_BYTES);
    assert!(margins_hold(&buffer) && output[32..] == theirs, "{name}");
    assert!(output[..32].iter().chain(after).all(|&byte| byte == 0xa5), "{name}");
    // The file is only read.
    assert!(lent == in_the_middle(file), "{name}");
}

#[test]
fn trim_stays_inside_what_it_was_lent() {
    let run = || {
        trims::examples().into_iter().chain((0..300).map(trim_of)).for_each(|file| trim_in_the_middle(&file))
    };
    yestrwyn::with_stack(run).expect("a thread");
}

/// Opens a board and runs its calls with everything lent from the middle of larger buffers.
fn board_in_the_middle(script: &Script) {
    let Script { name, day, file, calls, .. } = script;
    let lent = in_the_middle(file);
    let file = &lent[64..64 + file.len()];
    let mut buffer = buffer();
    let [symbols, rows, clauses, bindings, _] = parts(&mut buffer);
    let mut tables = Tables { symbols, rows, clauses, bindings };
    let (mut board, mut answer) = (Watched::new(BOARD_CELLS), [7; BOARD_ANSWER_CELLS + 4]);
    let middle = 2..2 + BOARD_ANSWER_CELLS;
    let cells: &mut [u16; BOARD_CELLS] = board.array();
    board_open_numbers(*day, file, &mut tables, cells, &mut answer[middle.clone()]);
    let mut second = Lent::new(script);
    second.board.copy_from_slice(Watched::new(BOARD_CELLS).array::<BOARD_CELLS>());
    assert_eq!(answer[middle.clone()], second.open(script).numbers(), "{name}");
    assert!(margins_hold(&buffer) && board.holds(), "{name}");
    for &call in calls {
        let before = buffer.clone();
        let [_, _, clauses, _, _] = parts(&mut buffer);
        let run = if let Call::Withdraw(_) = call { board_withdraw_numbers } else { board_return_numbers };
        run(file, clauses, board.array::<BOARD_CELLS>(), call.clause(), &mut answer[middle.clone()]);
        assert_eq!(answer[middle.clone()], second.call(file, call).numbers(), "{name} at {call:?}");
        assert!(*board.array::<BOARD_CELLS>() == second.board[..], "{name} at {call:?}");
        assert!(board.holds() && buffer == before, "{name} at {call:?}");
    }
    assert_eq!((&answer[..2], &answer[2 + BOARD_ANSWER_CELLS..]), (&[7; 2][..], &[7; 2][..]));
    // The file is only read.
    assert!(lent == in_the_middle(&script.file), "{name}");
}

#[test]
fn boards_stay_inside_what_they_were_lent() {
    let run = || {
        let named = boards::examples().into_iter().filter(|script| script.cells == BOARD_CELLS);
        named.chain((0..200).map(script_of)).for_each(|script| board_in_the_middle(&script));
    };
    yestrwyn::with_stack(run).expect("a thread");
}
