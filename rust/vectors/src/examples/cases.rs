//! The case sheet of the format description, under its letters; then more files like case J, and files with steps
//! on several right literals.

use yestrwyn_types::record::kind;

use super::{repeats, several, Example};
use crate::sketch::{app, neg, pos, var, SignedTerm, Sketch};

/// All cases that are files. Case L is a unification in a given environment and is tested as one.
pub fn examples() -> Vec<Example> {
    let mut all = sheet();
    all.extend(repeats::cases());
    all.extend(several::cases());
    all
}

/// The sheet itself.
pub(super) fn sheet() -> Vec<Example> {
    vec![
        Example::new("A", case_a()),
        Example::new("B", Vec::new()),
        Example::new("C-15-bytes", vec![0; 15]),
        Example::new(
            "D",
            two_units(2, pos(app(0, [var(0), var(0)])), neg(app(0, [var(1), app(1, [var(1)])]))),
        ),
        Example::new("E", two_units(1, pos(app(0, [app(2, [])])), neg(app(0, [app(3, [])])))),
        Example::new("F", case_f()),
        Example::new("G", case_g(false)),
        Example::new("G-bad-record-after", case_g(true)),
        Example::new("H", case_h()),
        Example::new("I", case_i()),
        Example::new("J", case_j()),
        Example::new("K-12", case_k(12)),
        Example::new("K-13", case_k(13)),
    ]
}

/// A: the two-step refutation, record by record.
pub fn case_a() -> Vec<u8> {
    let mut file = Sketch::new();
    for arity in [1, 1, 0] {
        file.symbol(arity);
    }
    file.fields(kind::APPLICATION, 0, &[2]);
    file.fields(kind::APPLICATION, 1, &[0, 0]);
    file.fields(kind::VARIABLE, 0, &[0]);
    file.fields(kind::APPLICATION, 1, &[1, 2]);
    file.fields(kind::APPLICATION, 1, &[0, 2]);
    file.fields(kind::APPLICATION, 1, &[0, 3]);
    file.fields(kind::APPLICATION, 1, &[1, 0]);
    file.fields(kind::APPLICATION, 1, &[0, 6]);
    file.fields(kind::INPUT, 1, &[3]);
    file.fields(kind::INPUT, 2, &[8, 11]);
    file.fields(kind::INPUT, 1, &[14]);
    file.resolve(0, 1, 1, 1);
    file.resolve(3, 1, 2, 1);
    file.finish()
}

/// D and E: two clauses of one literal each, resolved. Symbols: s0 of the arity given, s1 of one
/// argument, s2 and s3 constants.
fn two_units(arity: u8, left: SignedTerm, right: SignedTerm) -> Vec<u8> {
    let mut file = Sketch::new();
    for arity in [arity, 1, 0, 0] {
        file.symbol(arity);
    }
    let left = file.clause(&[left]);
    let right = file.clause(&[right]);
    file.resolve(left, 1, right, 1);
    file.finish()
}

/// F: +s0(v0,v1) +s0(v1,v0), keep the first, delete the second.
pub fn case_f() -> Vec<u8> {
    let mut file = Sketch::new();
    let p = file.symbol(2);
    let clause = file.clause(&[pos(app(p, [var(0), var(1)])), pos(app(p, [var(1), var(0)]))]);
    file.factor(clause, 1, 2);
    file.finish()
}

/// G: one input clause without literals, and a bad record after it or none.
pub fn case_g(bad: bool) -> Vec<u8> {
    let mut file = Sketch::new();
    file.clause(&[]);
    if bad {
        file.fields(0, 0, &[]);
    }
    file.finish()
}

/// H: a step that names literal 0.
pub fn case_h() -> Vec<u8> {
    let mut file = Sketch::new();
    let p = file.symbol(0);
    let left = file.clause(&[pos(app(p, []))]);
    let right = file.clause(&[neg(app(p, []))]);
    file.resolve(left, 0, right, 1);
    file.finish()
}

/// I: a literal on a variable row.
pub fn case_i() -> Vec<u8> {
    let mut file = Sketch::new();
    file.clause(&[pos(var(0))]);
    file.finish()
}

/// J: v0 declared twice.
pub fn case_j() -> Vec<u8> {
    let mut file = Sketch::new();
    file.fields(kind::VARIABLE, 0, &[0]);
    file.fields(kind::VARIABLE, 0, &[0]);
    file.finish()
}

/// K: -s0 +s0 resolved with itself, the result with itself, and so on.
pub fn case_k(steps: u16) -> Vec<u8> {
    let mut file = Sketch::new();
    let p = file.symbol(0);
    let mut clause = file.clause(&[neg(app(p, [])), pos(app(p, []))]);
    for _ in 0..steps {
        clause = file.resolve(clause, 2, clause, 1);
    }
    file.finish()
}
