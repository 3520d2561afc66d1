//! Withdrawn notices: answers, cells and refusals by hand; on named and random scripts that the board of cells is what is worked
//! out afresh after every call, and that a call alters no clause that does not use what it is about; and any cells, files and
//! tables.

use std::collections::HashSet;

use yestrwyn_second::board::{cells, Afresh};
use yestrwyn_second::{check, check_into};
use yestrwyn_types::limits::{BOARD_CELLS, RECORD_BYTES};
use yestrwyn_types::record::{kind, read, Record};
use yestrwyn_types::{BoardAnswer, BoardRefusal, Cells, ClauseState, Reason, Tables, Verdict, LENGTHS};
use yestrwyn_vectors::board_script;
use yestrwyn_vectors::boards::Lent;
use yestrwyn_vectors::examples::boards::{examples, Call, Script};
use yestrwyn_vectors::examples::deep;
use yestrwyn_vectors::random::SplitMix64;
use yestrwyn_vectors::sketch::{app, neg, pos, Sketch};

/// The script of a name.
fn named(name: &str) -> Script {
    examples().into_iter().find(|script| script.name == name).unwrap_or_else(|| panic!("no script {name}"))
}

/// The answers of a script, as they are displayed: the opening's, then one for each call.
fn answers(script: &Script) -> Vec<String> {
    let mut lent = Lent::new(script);
    let mut answers = vec![lent.open(script).to_string()];
    answers.extend(script.calls.iter().map(|&call| lent.call(&script.file, call).to_string()));
    answers
}

/// The answers of the script of a name.
fn answers_of(name: &str) -> Vec<String> {
    answers(&named(name))
}

/// A refusal of a call.
fn refused(reason: Reason) -> BoardAnswer {
    BoardAnswer::Refused(BoardRefusal::of_the_call(reason))
}

#[test]
fn every_cell_by_hand() {
    // Clauses +p, -p +q, -q in force from day 5 on, and the empty clause of all three in two steps; then -p and the empty clause
    // of clauses 0 and 5. The last children are these.
    const CHILDREN: [u16; 7] = [6, 3, 4, 4, 0, 6, 0];
    let cells_of = |states: [u16; 7]| std::array::from_fn(|clause| 8 * CHILDREN[clause] + states[clause]);
    let mut file = Sketch::new();
    let [p, q] = [0, 0].map(|arity| app(file.symbol(arity), []));
    file.clause(&[pos(p.clone())]);
    file.clause(&[neg(p.clone()), pos(q.clone())]);
    file.clause(&[neg(q)]);
    file.window(2, 5, 9);
    file.resolve(0, 1, 1, 1);
    file.resolve(3, 1, 2, 1);
    file.clause(&[neg(p)]);
    file.resolve(0, 1, 5, 1);
    let file = file.finish();
    let (mut tables, mut board) = (Cells::new(), vec![9; BOARD_CELLS + 2]);
    let on = |board: &[u16], day: u16, states: [u16; 7]| {
        let first: [u16; 7] = cells_of(states);
        let mut right = first.to_vec();
        right.resize(BOARD_CELLS - 1, 0);
        right.extend([day, 9, 9]);
        assert_eq!(board, right);
    };
    assert_eq!(cells::open(4, &file, &mut tables.lend(), &mut board), BoardAnswer::Answered(Some(6)));
    on(&board, 4, [7, 7, 5, 7, 5, 7, 7]);
    assert_eq!(cells::open(9, &file, &mut tables.lend(), &mut board), BoardAnswer::Answered(Some(4)));
    on(&board, 9, [7, 7, 7, 7, 7, 7, 7]);
    let mut call = |withdraw: bool, clause: u16| {
        let call = if withdraw { cells::withdraw } else { cells::give_back };
        let answer = call(&file, &tables.clauses, &mut board, clause);
        (answer.to_string(), board[..7].to_vec())
    };
    let right = |answer: &str, states: [u16; 7]| {
        let first: [u16; 7] = cells_of(states);
        (answer.to_string(), first.to_vec())
    };
    assert_eq!(call(true, 1), right("clause 6", [7, 6, 7, 6, 6, 7, 7]));
    assert_eq!(call(true, 1), right("refused 21 at 0", [7, 6, 7, 6, 6, 7, 7]));
    assert_eq!(call(true, 5), right("none", [7, 6, 7, 6, 6, 6, 6]));
    assert_eq!(call(true, 4), right("refused 20 at 0", [7, 6, 7, 6, 6, 6, 6]));
    assert_eq!(call(true, 0), right("none", [6, 6, 7, 6, 6, 6, 6]));
    assert_eq!(call(false, 1), right("none", [6, 7, 7, 6, 6, 6, 6]));
    assert_eq!(call(false, 0), right("clause 4", [7, 7, 7, 7, 7, 6, 6]));
    assert_eq!(call(false, 5), right("clause 4", [7, 7, 7, 7, 7, 7, 7]));
    assert_eq!(call(false, 7), right("refused 20 at 0", [7, 7, 7, 7, 7, 7, 7]));
    // Clause 3, whose last child is 4, comes between clause 0 and its last child, 6.
    assert_eq!(call(true, 0), right("none", [6, 7, 7, 6, 6, 7, 6]));
    assert_eq!(call(false, 0), right("clause 4", [7, 7, 7, 7, 7, 7, 7]));
}

/// The last children of every kind of step: of both parents, of one that is named twice, and of the last of several children.
#[test]
fn last_children_by_hand() {
    let children = |name: &str| {
        let script = named(name);
        let mut lent = Lent::new(&script);
        lent.open(&script);
        let clauses = lent.board[..BOARD_CELLS - 1].iter().take_while(|&&cell| cell >= 4);
        clauses.map(|&cell| ClauseState::last_child(cell)).collect::<Vec<u16>>()
    };
    assert_eq!(children("two-parents"), [2, 2, 0]);
    assert_eq!(children("an-unused-clause"), [3, 3, 0, 0]);
    assert_eq!(children("factor"), [2, 3, 3, 0]);
    assert_eq!(children("kind-7"), [2, 2, 0]);
    assert_eq!(children("one-parent-in-common"), [4, 3, 4, 0, 0]);
    assert_eq!(children("with-itself"), [3, 4, 5, 4, 5, 0]);
    assert_eq!(children("empty-input-clauses"), [0, 0, 0]);
    let many = children("4091-steps");
    assert_eq!((many.len(), &many[..2]), (4093, &[4092, 4092][..]));
    assert!(many[2..].iter().all(|&child| child == 0));
}

#[test]
fn answers_by_hand() {
    // An input clause that is used twice, or by both parents, is enough to take the empty clause away.
    let gone = ["clause 5", "none", "clause 5", "none", "clause 5", "none", "clause 5"];
    assert_eq!(answers_of("used-twice")[..7], gone);
    // Clause 3 is in no derivation.
    let both =
        ["clause 6", "none", "clause 6", "none", "clause 6", "none", "clause 6", "clause 6", "clause 6"];
    assert_eq!(answers_of("used-by-both-parents"), both);
    // The lowest empty clause goes, and the higher one stands until it comes back.
    let back = [
        "clause 4", "clause 5", "clause 4", "clause 5", "clause 4", "clause 4", "clause 4", "clause 4",
        "clause 4",
    ];
    assert_eq!(answers_of("the-lowest-goes-and-comes-back"), back);
    let lowest = [
        "clause 6", "clause 7", "clause 8", "clause 6", "clause 6", "none", "clause 7", "clause 6",
        "clause 6",
    ];
    assert_eq!(answers_of("one-after-another"), lowest);
    // A factor and a step on several right literals.
    assert_eq!(answers_of("factor")[..5], ["clause 3", "none", "clause 3", "none", "clause 3"]);
    assert_eq!(answers_of("kind-7")[..5], ["clause 2", "none", "clause 2", "none", "clause 2"]);
    // Two empty clauses, of clauses 0 and 1 and of clauses 0 and 2.
    let common = answers_of("one-parent-in-common");
    assert_eq!(common[..7], ["clause 3", "clause 4", "clause 3", "clause 3", "clause 3", "none", "clause 3"]);
    assert_eq!(common[7..], ["clause 4", "none", "clause 3", "clause 3"]);
}

#[test]
fn days_by_hand() {
    // Of the two empty clauses 4 and 5 the lower one has a parent in force on days 10 to 20.
    let on = |name: &str, day: u16| answers_of(&format!("{name}-on-{day}"));
    for day in [9, 21] {
        let right =
            ["clause 5", "clause 5", "clause 5", "none", "clause 5", "none", "none", "clause 5", "clause 5"];
        assert_eq!(on("present-and-out-of-force", day), right, "day {day}");
    }
    for day in [10, 20] {
        let right = [
            "clause 4", "clause 5", "clause 4", "clause 4", "clause 4", "clause 4", "none", "clause 5",
            "clause 4",
        ];
        assert_eq!(on("present-and-out-of-force", day), right, "day {day}");
    }
    // Clause 0 is in force from day 30 to 40 and clause 3 from 10 to 35, by the last record of each.
    let opened = |day: u16| on("superseded", day)[0].clone();
    let right = ["clause 5", "clause 4", "clause 4", "clause 4", "clause 4", "none"];
    assert_eq!([15, 30, 35, 36, 40, 41].map(opened), right);
    let withdrawn = |day: u16| on("superseded", day)[1].clone();
    let right = ["clause 5", "clause 5", "clause 5", "none", "none", "none"];
    assert_eq!([15, 30, 35, 36, 40, 41].map(withdrawn), right);
    for day in [0, 5, u16::MAX] {
        assert_eq!(on("always-again", day)[0], "clause 2");
    }
    for day in [0, u16::MAX] {
        assert!(on("out-of-force", day).iter().all(|answer| answer == "none"), "day {day}");
    }
}

#[test]
fn refusals_by_hand() {
    let all = answers_of("20-no-input-clause");
    assert!(all[0] == "clause 2" && all[1..].iter().all(|answer| answer == "refused 20 at 0"), "{all:?}");
    let twice = ["clause 2", "none", "refused 21 at 0", "clause 2", "refused 21 at 0"];
    assert_eq!(answers_of("21-withdrawn-twice"), twice);
    let start = ["clause 2", "refused 21 at 0", "refused 21 at 0", "none"];
    assert_eq!(answers_of("21-returned-at-the-start"), start);
    let derived = answers_of("20-derived-by-each-kind");
    assert!(derived[0] == "clause 4" && derived[1..].iter().all(|answer| answer == "refused 20 at 0"));
    let empty = answers_of("empty-file");
    assert!(empty[0] == "none" && empty[1..].iter().all(|answer| answer == "refused 20 at 0"), "{empty:?}");
    for cells in [0, 1, 3, 4095, 4096] {
        let short = answers_of(&format!("2-board-of-{cells}"));
        assert!(short.iter().all(|answer| answer == "refused 2 at 0"), "{cells} cells: {short:?}");
    }
    // A short board comes before the file is looked at.
    assert_eq!(answers_of("2-before-1")[0], "refused 2 at 0");
    assert_eq!(answers_of("8-at-a-step"), ["refused 8 at 10"]);
    assert_eq!(answers_of("16-crossed-days"), ["refused 16 at 5"]);
    assert_eq!(answers_of("1-cut"), ["refused 1 at 0"]);
}

/// Runs a script by both ways, and compares answers and cells after every call; gives how many calls altered the board.
fn both_ways(script: &Script) -> usize {
    let mut lent = Lent::new(script);
    let opened = lent.open(script);
    let mut afresh = match Afresh::open(script.day, &script.file) {
        _ if script.cells < BOARD_CELLS => return 0,
        Ok(afresh) => afresh,
        Err(refusal) => {
            assert_eq!(opened, BoardAnswer::Refused(refusal), "{}", script.name);
            assert!(lent.board.iter().all(|&cell| cell == 0), "{}", script.name);
            return 0;
        }
    };
    assert_eq!(opened, BoardAnswer::Answered(afresh.answer()), "{}", script.name);
    // With all clauses present it is the verdict of the check.
    let verdict = afresh.answer().map_or(Verdict::Open, Verdict::Accepted);
    assert_eq!(check(script.day, &script.file).verdict, verdict, "{}", script.name);
    let mut altered = 0;
    for &call in &script.calls {
        let before = lent.board.clone();
        let answer = lent.call(&script.file, call);
        let right = match call {
            Call::Withdraw(clause) => afresh.withdraw(clause),
            Call::Return(clause) => afresh.give_back(clause),
        };
        assert_eq!(answer, right, "{} at {call:?}", script.name);
        assert!(lent.board[..BOARD_CELLS] == afresh.cells(), "{} at {call:?}", script.name);
        only_its_users_are_altered(&afresh, call, &before, &lent.board);
        altered += usize::from(answer.result().is_ok());
    }
    altered
}

/// No cell is altered but that of the clause and those of clauses that use it; with a refusal none is.
fn only_its_users_are_altered(afresh: &Afresh, call: Call, before: &[u16], after: &[u16]) {
    let altered = (0..).zip(before.iter().zip(after)).filter(|(_, (one, other))| one != other);
    for (number, _) in altered {
        assert!(afresh.uses(number).contains(&call.clause()), "clause {number} at {call:?}");
    }
}

#[test]
fn the_board_is_what_is_worked_out_afresh() {
    let named: usize = examples().iter().filter(|script| script.file.len() < 20_000).map(both_ways).sum();
    let random: usize = (0..700).map(|seed| both_ways(&board_script(seed))).sum();
    assert!(named > 250 && random > 4000, "{named} and {random} calls alter a board");
}

#[test]
fn calls_in_any_order_that_come_to_the_same_clauses_come_to_the_same_board() {
    let mut compared = 0;
    for seed in 0..300 {
        let script = board_script(seed);
        let mut lent = Lent::new(&script);
        let Ok(opened) = lent.open(&script).result() else { continue };
        let start = lent.board.clone();
        let mut withdrawn = HashSet::new();
        for &call in &script.calls {
            if lent.call(&script.file, call).result().is_ok() {
                match call {
                    Call::Withdraw(clause) => withdrawn.insert(clause),
                    Call::Return(clause) => withdrawn.remove(&clause),
                };
            }
        }
        // What is withdrawn at the end, withdrawn at once, from a board of its own.
        let mut other = Lent::new(&script);
        other.open(&script);
        for &clause in &withdrawn {
            other.call(&script.file, Call::Withdraw(clause));
        }
        assert!(lent.board == other.board, "seed {seed}");
        // All returned: the board is as it was opened, and so is the answer.
        let mut answer = BoardAnswer::Answered(opened);
        for &clause in &withdrawn {
            answer = other.call(&script.file, Call::Return(clause));
        }
        assert!(other.board == start && answer == BoardAnswer::Answered(opened), "seed {seed}");
        compared += usize::from(withdrawn.len() > 1);
    }
    assert!(compared > 100, "{compared} scripts end with several clauses withdrawn");
}

/// What opening leaves alone, with tables and boards of marks.
#[test]
fn tables_are_as_the_check_leaves_them_and_short_boards_touch_nothing() {
    for seed in 0..200 {
        let Script { day, file, .. } = board_script(seed);
        for (more, cells) in
            [(0isize, BOARD_CELLS), (3, BOARD_CELLS + 5), (0, BOARD_CELLS - 1), (-1, BOARD_CELLS)]
        {
            let lengths = LENGTHS.map(|length| length.saturating_add_signed(more));
            let [mut ours, mut theirs] = [(); 2].map(|()| lengths.map(|length| vec![0xabcd; length]));
            let mut board = vec![0xabcd; cells];
            let answer = cells::open(day, &file, &mut lend(&mut ours), &mut board);
            if cells >= BOARD_CELLS {
                check_into(day, &file, &mut lend(&mut theirs));
            }
            assert!(ours == theirs, "seed {seed}, {more} and {cells} cells");
            let written = if answer.result().is_ok() { BOARD_CELLS } else { 0 };
            assert!(board[written..].iter().all(|&cell| cell == 0xabcd), "seed {seed}, {cells} cells");
            assert_eq!(
                answer == refused(Reason::Table),
                more < 0 && file.len() % 16 == 0 || cells < BOARD_CELLS
            );
        }
    }
}

/// Four tables, as they are lent.
fn lend([symbols, rows, clauses, bindings]: &mut [Vec<u16>; 4]) -> Tables<'_> {
    Tables { symbols, rows, clauses, bindings }
}

/// A record of a kind on clauses a and c.
fn step(kind: u8, a: u16, c: u16) -> [u8; RECORD_BYTES] {
    Record::new(kind, 0, &[a, 1, c, 1]).to_bytes()
}

/// A table of clauses whose clause n has record n and one literal, but for one without any.
fn table(empty: usize) -> Vec<u16> {
    (0..4096u16).flat_map(|number| [number, u16::from(usize::from(number) != empty), 1, 0, 0]).collect()
}

#[test]
fn any_cells_have_an_answer() {
    // Clause 1 names clauses that come later, itself, and cells that are no clauses: their bits are read all the same. It keeps its
    // own last child.
    let mut board = vec![0; 6000];
    (board[0], board[1], board[2], board[4096], board[5000]) = (22, 9, 4, 3, 0xffff);
    for (a, c, right) in
        [(5000, 0, 15), (4096, 5000, 15), (4096, 2, 12), (1, 0, 13), (5999, 0, 12), (65_535, 0, 12)]
    {
        let mut board = board.clone();
        let file = [step(4, 0, 0), step(5, a, c), step(4, 0, 0)].concat();
        let answer = cells::give_back(&file, &table(1), &mut board, 0);
        assert_eq!(board[..3], [23, right, 4], "{a} and {c}");
        assert_eq!(answer, BoardAnswer::Answered((right == 15).then_some(1)), "{a} and {c}");
        assert_eq!(board[3..], [&[0; 4093][..], &[3], &[0; 903], &[0xffff], &[0; 999]].concat());
    }
    // A factor has one parent; every other kind that is no input clause has two, also a kind that there is not.
    for (kind, right) in [(6, 7), (5, 6), (7, 6), (0, 6), (8, 6), (255, 6)] {
        let mut board = vec![0; BOARD_CELLS];
        (board[0], board[1], board[2]) = (22, 6, 4);
        let file = [step(4, 0, 0), step(4, 0, 0), step(kind, 0, 1)].concat();
        cells::give_back(&file, &table(9), &mut board, 0);
        assert_eq!(board[..4], [23, 6, right, 0], "kind {kind}");
    }
    // A cell of 4 and more is a clause, whichever of its bits that is; one below 4 is none.
    for (cell, right) in [(3, 3), (2, 2), (4, 5), (6, 7), (8, 13), (10, 15), (0x7ff8, 0x7ffd)] {
        let mut board = vec![0; BOARD_CELLS];
        board[0] = cell;
        cells::give_back(&step(4, 0, 0), &table(9), &mut board, 0);
        assert_eq!(board[0], right, "{cell}");
    }
}

/// Where a pass ends, with clauses that are all factors of the first, which is returned. A cell that its clause alone has is 6, or
/// 7 where it stands.
#[test]
fn a_pass_ends_behind_the_last_child_of_what_has_changed() {
    let child = |number: u16| 8 * number + 6;
    let cases = [
        ("no children", [6, 6, 6, 6, 6], [7, 6, 6, 6, 6]),
        ("up to the last child", [child(2), 6, 6, 6, 6], [child(2) + 1, 7, 7, 6, 6]),
        ("moved on", [child(1), child(3), 6, 6, 6], [child(1) + 1, child(3) + 1, 7, 7, 6]),
        ("moved on twice", [child(1), child(2), child(4), 6, 6], [15, 23, child(4) + 1, 7, 7]),
        ("not moved back", [child(3), child(1), 6, 6, 6], [child(3) + 1, child(1) + 1, 7, 7, 6]),
        ("no change", [child(1), child(3) + 1, 6, 6, 6], [child(1) + 1, child(3) + 1, 6, 6, 6]),
        ("a change to a clause", [child(1), 8 * 3 + 3, 6, 6, 6], [child(1) + 1, child(3) + 1, 7, 7, 6]),
        ("over cells without a clause", [child(3), 0, 3, 6, 6], [child(3) + 1, 7, 7, 7, 6]),
    ];
    for (name, before, after) in cases {
        let mut board = vec![0; BOARD_CELLS];
        board[..5].copy_from_slice(&before);
        let file = [&step(4, 0, 0)[..], &[step(6, 0, 0); 5].concat()].concat();
        cells::give_back(&file, &table(9), &mut board, 0);
        assert_eq!(board[..5], after, "{name}");
        assert!(board[5..].iter().all(|&cell| cell == 0), "{name}");
    }
}

/// A pass goes up to clause 4,095 and leaves the day alone; no file has steps on so many clauses, but cells can say so.
#[test]
fn a_pass_over_every_clause() {
    let file = [step(4, 0, 0), step(6, 0, 0)].concat();
    let mut clauses: Vec<u16> = (0..4100).flat_map(|_| [1, 1, 1, 0, 0]).collect();
    (clauses[0], clauses[5 * 4095 + 1]) = (0, 0);
    // With a last child that is past every clause; and with one that each clause moves on, the last one to the day.
    let rising: Vec<u16> = (1..).map(|next| 8 * next + 6).take(BOARD_CELLS + 2).collect();
    for before in [vec![0xfffe; BOARD_CELLS + 2], rising] {
        let mut board = before.clone();
        assert_eq!(cells::give_back(&file, &clauses, &mut board, 0), BoardAnswer::Answered(Some(4095)));
        assert!(board[..4096].iter().zip(&before).all(|(after, before)| *after == before + 1));
        assert_eq!(board[4096..], before[4096..]);
    }
    // Input clauses keep their cells as they are, whatever else these hold.
    let file = [step(4, 0, 0), step(4, 0, 0)].concat();
    let mut board = vec![0xff02; BOARD_CELLS];
    assert_eq!(cells::give_back(&file, &clauses, &mut board, 0), BoardAnswer::Answered(None));
    assert_eq!(board, [&[0xff07; 1][..], &[0xff02; 4096]].concat());
}

#[test]
fn short_tables_and_files_are_read_as_zeros() {
    // Without a table every clause has record 0 and no literals.
    let file = step(4, 0, 0);
    let mut board = vec![6; BOARD_CELLS];
    assert_eq!(cells::give_back(&file, &[], &mut board, 4095), BoardAnswer::Answered(Some(4095)));
    assert_eq!(cells::give_back(&file, &[], &mut board, 17), BoardAnswer::Answered(Some(17)));
    // Without a file no clause is an input clause, and neither is one whose record is cut.
    for file in [&[][..], &file[..15]] {
        assert_eq!(cells::withdraw(file, &[], &mut board, 17), refused(Reason::NotAnInput));
    }
    // A clause whose record is past the end is made of clause 0 twice.
    let mut board = vec![6; BOARD_CELLS];
    board[0] = 14;
    let clauses = [0, 1, 0, 0, 0, 4000, 0, 0, 0, 0];
    assert_eq!(cells::give_back(&file, &clauses, &mut board, 0), BoardAnswer::Answered(Some(1)));
    assert_eq!(board[..3], [15, 7, 6]);
    // The day's cell is no clause.
    let mut board = vec![7; BOARD_CELLS];
    board[0] = 4;
    for clause in [4096, 5000, u16::MAX] {
        assert_eq!(cells::withdraw(&file, &[], &mut board, clause), refused(Reason::NotAnInput));
    }
}

/// Any cells, tables and files: there is an answer, and every cell is what the rule says, seen from its end.
#[test]
fn garbage_is_read_by_the_rule() {
    let mut random = SplitMix64::new(9);
    let mut followed = 0;
    for _ in 0..800 {
        let clauses: Vec<u16> = (0..random.below(200)).map(|_| random.below(12) as u16).collect();
        let records = (0..12).map(|_| {
            let kind = [0, 4, 4, 4, 5, 5, 6, 7, 9][random.below(9)];
            step(kind, random.below(45) as u16, random.below(45) as u16)
        });
        let mut file = records.collect::<Vec<_>>().concat();
        file.truncate(200 - random.below(60));
        let mut board: Vec<u16> =
            (0..BOARD_CELLS + random.below(9)).map(|_| random.below(8 * 45) as u16).collect();
        let clause = random.below(20) as u16;
        let before = board.clone();
        let answer = cells::withdraw(&file, &clauses, &mut board, clause);
        if answer.result().is_err() {
            assert!(board == before);
            continue;
        }
        let number = usize::from(clause);
        assert!(board[..number] == before[..number]);
        assert_eq!(board[number], before[number] / 8 * 8 + 4 + before[number] / 2 % 2 * 2);
        let (mut place, mut last) = (number + 1, usize::from(before[number] / 8));
        while place <= last {
            assert_eq!(board[place], by_the_rule(&file, &clauses, &before, &board, place));
            if board[place] != before[place] {
                last = last.max(usize::from(before[place] / 8));
                followed += 1;
            }
            place += 1;
        }
        assert!(board[place..] == before[place..]);
    }
    assert!(followed > 500, "{followed} clauses follow what is withdrawn");
}

/// What a clause that is passed has afterwards, from the boards before and after: earlier parents are as they are afterwards,
/// itself and later ones as they were before.
fn by_the_rule(file: &[u8], clauses: &[u16], before: &[u16], after: &[u16], place: usize) -> u16 {
    let record = clauses.get(5 * place).copied().unwrap_or(0);
    let record = read(file, record).unwrap_or(Record::new(0, 0, &[]));
    let cell = |parent: u16| {
        let cells = if usize::from(parent) < place { after } else { before };
        cells.get(usize::from(parent)).copied().unwrap_or(0)
    };
    let [a, _, c, ..] = record.fields;
    let state = match record.kind {
        4 => return before[place],
        6 => cell(a),
        _ => cell(a) & cell(c),
    };
    before[place] / 8 * 8 + 4 + state % 4
}

/// As many clauses as there can be, and derivations as long.
#[test]
fn long_derivations() {
    for name in ["4096-input-clauses", "4091-steps", "three-hundred-steps"] {
        let Script { day, file, calls, .. } = named(name);
        // Afresh, every derivation is walked: some calls are enough.
        let script = Script::new(name, day, file, &calls[..3]);
        both_ways(&script);
    }
    let mut lent = Lent::new(&Script::new("chain", 0, Vec::new(), &[]));
    let script = Script::new("chain", 0, deep::derivation(4000), &[]);
    lent.open(&script);
    assert!(lent.board[..4002].iter().all(|&cell| cell % 8 == 7));
    lent.call(&script.file, Call::Withdraw(0));
    let afresh = Afresh::open(0, &script.file).expect("it stands");
    let users = (0..4002).filter(|&number| afresh.uses(number).contains(&0)).count();
    assert_eq!(lent.board.iter().filter(|&&cell| cell % 8 == 6).count(), users);
}

#[test]
fn windows_are_no_clauses() {
    let mut file = Sketch::new();
    let clause = file.clause(&[]);
    file.window(clause, 3, 3);
    let kinds: Vec<u8> = file.bytes().iter().step_by(RECORD_BYTES).copied().collect();
    assert_eq!(kinds, [kind::INPUT, kind::WINDOW]);
    let calls = [Call::Withdraw(1), Call::Withdraw(0)];
    assert_eq!(
        answers(&Script::new("window", 3, file.finish(), &calls)),
        ["clause 0", "refused 20 at 0", "none"]
    );
}
