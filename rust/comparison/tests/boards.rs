//! Boards: the proved functions and the second implementation give equal numbers and cells, worked out afresh, and over any cells,
//! files and tables.
//!
//! Every test runs in a thread with a larger stack than a test's own 2 MiB: see `yestrwyn::with_stack`.

use std::fs;
use std::path::Path;

use yestrwyn::exported::{board_open_numbers, board_return_numbers, board_withdraw_numbers};
use yestrwyn::limits::BOARD_CELLS;
use yestrwyn::{Board, BoardAnswer, BoardRefusal, Cells, Reason, Tables, BOARD_ANSWER_CELLS, LENGTHS};
use yestrwyn_comparison::boards::{script_of, Any, BoardLengths, Boards};
use yestrwyn_second::board::Afresh;
use yestrwyn_vectors::board_script;
use yestrwyn_vectors::boards::{scripts, Lent};
use yestrwyn_vectors::examples::boards::{Call, Script};
use yestrwyn_vectors::examples::deep;
use yestrwyn_vectors::stored::groups;

/// Runs a test with stack enough for every file.
fn with_stack(test: impl FnOnce() + Send) {
    yestrwyn::with_stack(test).expect("a thread");
}

/// Runs a script by both.
fn same(boards: &mut Boards, script: &Script, lengths: BoardLengths) {
    if let Err(difference) = boards.compare(script, lengths, 0xabcd) {
        panic!("{difference}; {} with {lengths:?}", script.name);
    }
}

/// Lengths for a script, with the board that it is lent.
fn lengths(script: &Script, more: usize) -> BoardLengths {
    BoardLengths { board: script.cells, ..BoardLengths::longer(more) }
}

#[test]
fn all_stored_boards() {
    with_stack(|| {
        let mut boards = Boards::default();
        for (script, more) in scripts().iter().zip([0, 1, 5].into_iter().cycle()) {
            // Afresh, every derivation is walked at every call.
            let few = if script.file.len() > 20_000 { 4 } else { script.calls.len() };
            let script =
                Script { calls: script.calls[..few.min(script.calls.len())].to_vec(), ..script.clone() };
            same(&mut boards, &script, lengths(&script, more));
        }
        assert!(boards.met.kinds.iter().all(|&kind| kind > 200), "{:?}", boards.met);
    });
}

#[test]
fn random_sequences_of_calls() {
    with_stack(|| {
        let mut boards = Boards::default();
        for seed in 1000..2500 {
            same(&mut boards, &board_script(seed), BoardLengths::longer((seed % 3) as usize));
        }
        assert!(boards.met.kinds.iter().all(|&kind| kind > 3000), "{:?}", boards.met);
    });
}

#[test]
fn scripts_of_every_kind_with_parts_of_any_length() {
    with_stack(|| {
        let mut boards = Boards::default();
        for seed in 0..1500 {
            same(&mut boards, &script_of(seed), BoardLengths::of(seed));
        }
        assert!(boards.met.kinds.iter().all(|&kind| kind > 2000), "{:?}", boards.met);
        assert!(boards.met.untouched > 50, "{:?}", boards.met);
    });
}

#[test]
fn any_cells_files_and_tables() {
    with_stack(|| {
        let mut boards = Boards::default();
        for seed in 0..6000 {
            let any = Any::of(seed);
            if let Err(difference) = boards.compare_any(&any) {
                panic!("{difference}; seed {seed}, {:?}", any.call);
            }
        }
        assert!(boards.met.kinds.iter().all(|&kind| kind > 800), "{:?}", boards.met);
        assert!(boards.met.untouched > 100 && boards.met.followed > 1000, "{:?}", boards.met);
    });
}

/// Every stored vector's file: its first clauses withdrawn and returned.
#[test]
fn stored_vectors() {
    with_stack(|| {
        let mut boards = Boards::default();
        let calls = [Call::Withdraw(0), Call::Withdraw(1), Call::Return(0), Call::Withdraw(2)];
        // The deep ones have a test of their own: afresh, a long derivation takes long.
        let groups = groups().into_iter().filter(|group| group.name != "deep");
        for example in groups.flat_map(|group| group.examples) {
            let few = if example.file.len() > 20_000 { 1 } else { 4 };
            let script = Script::new(&example.name, example.day, example.file, &calls[..few]);
            same(&mut boards, &script, BoardLengths::longer(1));
        }
        assert!(boards.met.kinds.iter().all(|&kind| kind > 500), "{:?}", boards.met);
    });
}

#[test]
fn boards_and_answers_of_any_length() {
    with_stack(|| {
        let mut boards = Boards::default();
        for seed in 0..5 {
            let script = board_script(seed);
            for board in [0, 1, 2048, 4095, 4096, 4097, 4098, 8194, 70_000] {
                same(&mut boards, &script, BoardLengths { board, ..BoardLengths::longer(0) });
            }
            for answer in 0..=6 {
                same(&mut boards, &script, BoardLengths { answer, ..BoardLengths::longer(1) });
            }
        }
    });
}

#[test]
fn short_tables() {
    with_stack(|| {
        let mut boards = Boards::default();
        for (short, least) in LENGTHS.into_iter().enumerate() {
            for length in [0, 1, least - 1, least] {
                let mut lengths = BoardLengths::longer(3);
                lengths.tables[short] = length;
                for seed in [2, 3] {
                    same(&mut boards, &board_script(seed), lengths);
                    same(&mut boards, &board_script(seed), BoardLengths { board: 4096, ..lengths });
                }
            }
        }
    });
}

/// Nothing at all is touched where the answer is too short; with a short board nothing but the answer.
#[test]
fn short_answers_and_boards_touch_nothing() {
    with_stack(|| {
        let Script { file, .. } = board_script(2);
        let cases =
            (0..BOARD_ANSWER_CELLS).map(|cells| (cells, BOARD_CELLS)).chain([(5, BOARD_CELLS - 1), (2, 0)]);
        for (cells, length) in cases {
            let mut tables = LENGTHS.map(|length| vec![7; length]);
            let (mut board, mut answer) = (vec![7; length], vec![7; cells]);
            let right = if cells < BOARD_ANSWER_CELLS { vec![7; cells] } else { vec![2, 2, 0, 7, 7] };
            let [symbols, rows, clauses, bindings] = &mut tables;
            let mut lent = Tables { symbols, rows, clauses, bindings };
            board_open_numbers(9, &file, &mut lent, &mut board, &mut answer);
            assert_eq!(answer, right, "{cells} and {length} cells");
            for call in [board_withdraw_numbers, board_return_numbers] {
                answer.fill(7);
                call(&file, &tables[2], &mut board, 0, &mut answer);
                assert_eq!(answer, right, "{cells} and {length} cells");
            }
            assert!(
                tables.iter().flatten().chain(&board).all(|&cell| cell == 7),
                "{cells} and {length} cells"
            );
        }
    });
}

/// Derivations as long and as deep as they can be.
#[test]
fn deep_files() {
    with_stack(|| {
        let mut boards = Boards::default();
        for example in deep::examples() {
            let calls = [Call::Withdraw(1)];
            same(&mut boards, &Script::new(&example.name, 0, example.file, &calls), BoardLengths::longer(0));
        }
    });
}

/// The type for users, beside what is worked out afresh: answers, refusals, and what it says of every clause.
#[test]
fn the_value_is_the_numbers() {
    with_stack(|| {
        for seed in 0..150 {
            let Script { day, file, calls, .. } = script_of(seed);
            let (opened, afresh) = (Board::open_here(day, file.as_slice()), Afresh::open(day, &file));
            let (mut board, mut afresh) = match (opened, afresh) {
                (Ok(board), Ok(afresh)) => (board, afresh),
                (opened, afresh) => {
                    assert_eq!(opened.err(), afresh.err(), "seed {seed}");
                    continue;
                }
            };
            assert_eq!((board.day(), board.file(), board.answer()), (day, file.as_slice(), afresh.answer()));
            for call in calls {
                let before = (board.answer(), board.cells().to_vec());
                let (ours, theirs) = match call {
                    Call::Withdraw(clause) => (board.withdraw(clause), afresh.withdraw(clause)),
                    Call::Return(clause) => (board.give_back(clause), afresh.give_back(clause)),
                };
                assert_eq!(BoardAnswer::from(ours), theirs, "seed {seed} at {call:?}");
                assert_eq!(board.answer(), ours.unwrap_or(before.0));
                assert!(ours.is_ok() || board.cells() == before.1);
            }
            assert_eq!(board.cells(), afresh.cells(), "seed {seed}");
            for clause in (0..afresh.len() as u16 + 2).chain([4095, 4096, u16::MAX]) {
                let there = usize::from(clause) < afresh.len();
                let state = there.then(|| afresh.state(clause));
                assert_eq!(board.state(clause), state, "seed {seed}, clause {clause}");
                assert_eq!(board.stands(clause), state.is_some_and(|state| state.stands));
                assert_eq!(board.in_force(clause), state.is_some_and(|state| state.in_force));
                assert_eq!(board.is_present(clause), board.stands(clause) && afresh.is_input(clause));
            }
        }
    });
}

/// Opened on a thread of its own, and refused there.
#[test]
fn boards_are_opened_on_a_thread_of_their_own() {
    let Script { day, file, .. } = board_script(2);
    let mut second = Cells::new();
    let answer = yestrwyn_second::check_into(day, &file, &mut second.lend());
    let board = Board::open(day, file).expect("a thread").expect("it stands");
    assert!(board.tables() == &second);
    assert_eq!(board.answer().is_some(), answer.verdict.is_accepted());
    let refusal = Board::open(day, vec![9; 32]).expect("a thread").expect_err("no such kind");
    assert_eq!(refusal, BoardRefusal { reason: Reason::Kind, record: 0 });
    assert_eq!(refusal.to_string(), "refused 3 at 0");
}

/// A copy of a board goes its own way.
#[test]
fn a_copy_of_a_board_is_a_board_of_its_own() {
    with_stack(|| {
        let script = scripts().into_iter().find(|script| script.name == "two-parents").expect("it is stored");
        let mut board = Board::open_here(script.day, script.file.as_slice()).expect("it stands");
        let mut copy = board.clone();
        assert_eq!((board.withdraw(0), board.answer()), (Ok(None), None));
        assert_eq!((copy.answer(), copy.is_present(0), board.is_present(0)), (Some(2), true, false));
        assert_eq!(copy.give_back(0), Err(BoardRefusal::of_the_call(Reason::Already)));
        assert_eq!(copy.withdraw(2), Err(BoardRefusal::of_the_call(Reason::NotAnInput)));
    });
}

/// What the stored vectors say is what the proved functions give: the same lines would be written.
#[test]
fn opening_again_begins_anew() {
    with_stack(|| {
        let script = board_script(2);
        let mut lent = Lent::new(&script);
        let first = lent.open(&script);
        let (mut tables, mut board, mut answer) =
            (Cells::new(), vec![0xffff; BOARD_CELLS], [0; BOARD_ANSWER_CELLS]);
        for _ in 0..2 {
            board_open_numbers(script.day, &script.file, &mut tables.lend(), &mut board, &mut answer);
            assert_eq!((BoardAnswer::from_numbers(answer), &board), (first, &lent.board));
            board_withdraw_numbers(&script.file, &tables.clauses, &mut board, 0, &mut answer);
        }
    });
}

/// The header declares the functions, and the lengths that the types have.
#[test]
fn the_header_has_the_board() {
    let path = Path::new(env!("CARGO_MANIFEST_DIR")).join("../../crates/checker_c/checker.h");
    let header = fs::read_to_string(path).expect("the header");
    for function in ["open", "withdraw", "return"] {
        assert!(header.contains(&format!("void checker_board_{function}(")), "{function}");
    }
    assert!(header.contains(&format!("#define CHECKER_BOARD {BOARD_CELLS}\n")));
    assert!(header.contains(&format!("#define CHECKER_BOARD_ANSWER {BOARD_ANSWER_CELLS}\n")));
}
