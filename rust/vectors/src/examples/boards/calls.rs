//! Calls, files and boards that are refused, with the reason in the name.

use super::{each, Call, Script};
use crate::examples::refutations::{opposites, refuted};
use crate::examples::{cases, refusals};
use crate::sketch::{app, neg, pos, Sketch};

/// All of them.
pub fn examples() -> Vec<Script> {
    let mut all = refused_calls();
    all.extend(refused_files());
    all.extend(boards());
    all.extend(empty_file());
    all
}

/// Clauses that are no input clauses, and clauses in that condition already.
fn refused_calls() -> Vec<Script> {
    let file = || refuted(1).finish();
    let twice =
        |clause| [Call::Withdraw(clause), Call::Withdraw(clause), Call::Return(clause), Call::Return(clause)];
    // Of clauses that there are not, of the derived one, and of one past every board.
    let no_inputs = each([2, 3, 4095, 4096, 4097, u16::MAX]);
    let between = [&no_inputs[..], &twice(1), &no_inputs].concat();
    let mut kinds = Sketch::new();
    let p = app(kinds.symbol(0), []);
    let left = kinds.clause(&[pos(p.clone())]);
    let right = kinds.clause(&[neg(p.clone()), neg(p)]);
    let derived = [
        kinds.resolve(left, 1, right, 1),
        kinds.factor(right, 1, 2),
        kinds.resolve_several(left, 1, right, &[1, 2]),
    ];
    kinds.window(left, 0, 9);
    vec![
        Script::new("20-no-input-clause", 0, file(), &no_inputs),
        Script::new("20-derived-by-each-kind", 0, kinds.finish(), &each(derived.into_iter().chain([5]))),
        Script::new("21-withdrawn-twice", 0, file(), &twice(0)),
        Script::new(
            "21-returned-at-the-start",
            0,
            file(),
            &[Call::Return(0), Call::Return(1), Call::Withdraw(1)],
        ),
        Script::new("21-of-a-clause-out-of-force", 0, out_of_force(), &twice(0)),
        Script::new("20-and-21-between", 0, file(), &between),
    ]
}

/// +p, which is in force on no day but 9, with -p.
fn out_of_force() -> Vec<u8> {
    let mut file = refuted(1);
    file.window(0, 9, 9);
    file.finish()
}

/// Files that are refused get no board: the check's reason and record, whatever is called then.
fn refused_files() -> Vec<Script> {
    let mut late = refuted(2);
    late.resolve(0, 1, 2, 1);
    let mut crossed = refuted(1);
    crossed.window(0, 2, 1);
    let mut too_long = opposites(1).finish();
    too_long.resize(65_552, 0);
    let cut = cases::case_a()[..100].to_vec();
    let mut all = vec![
        Script::new("8-at-a-step", 0, late.finish(), &[]),
        Script::new("16-crossed-days", 0, crossed.finish(), &[]),
        Script::new("1-too-long", 0, too_long, &[]),
        Script::new("1-cut", 0, cut, &[]),
    ];
    let refused = refusals::examples().into_iter().filter(|example| !example.name.starts_with("stands"));
    all.extend(
        refused
            .step_by(17)
            .map(|example| Script::new(&format!("refused-{}", example.name), 3, example.file, &[])),
    );
    all
}

/// Boards that are too short, just long enough and longer. With a short one the file is not even looked at.
fn boards() -> Vec<Script> {
    let script = |name: &str, file: Vec<u8>| Script::new(name, 0, file, &each(0..2));
    let mut all: Vec<Script> = [0, 1, 3, 4095, 4096]
        .map(|cells| script(&format!("2-board-of-{cells}"), refuted(1).finish()).lent(cells))
        .into();
    all.push(script("2-before-1", vec![0; 15]).lent(4096));
    all.push(script("2-before-20", opposites(0).finish()).lent(4096));
    all.extend(
        [4097, 4098, 8192].map(|cells| script(&format!("board-of-{cells}"), refuted(1).finish()).lent(cells)),
    );
    all
}

/// A file without any record stands, and no clause of it can be named.
fn empty_file() -> Vec<Script> {
    let rows = {
        let mut file = Sketch::new();
        let p = file.symbol(0);
        file.application(p, &[]);
        file.finish()
    };
    vec![
        Script::new("empty-file", 0, Vec::new(), &each([0, 4095])),
        Script::new("empty-file-on-the-last-day", u16::MAX, Vec::new(), &each([0])),
        Script::new("no-clause", 5, rows, &each([0, 1])),
    ]
}
