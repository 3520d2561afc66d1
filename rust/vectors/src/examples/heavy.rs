//! Files made to take a checker long: what a limit allows, in as many steps as fit.

use super::edges::{all_variables, sized};
use super::Example;
use crate::shapes::{Ending, Shape};
use crate::sketch::{app, apply, neg, pos, var, Sketch};

/// The most records of a file.
const RECORDS: u16 = 4096;

/// One file for each part of a checker that can be made to work hard.
pub fn examples() -> Vec<Example> {
    vec![
        Example::new("heavy-count", super::deep::derivation(4084)),
        Example::new("heavy-chains", chains()),
        Example::new("heavy-chains-resolve", chains_resolve()),
        Example::new("heavy-factored-tree", factored_tree()),
        Example::new("heavy-work-pairs", work_pairs()),
        Example::new("heavy-work-occurrence", work_occurrence()),
        Example::new("heavy-literals", literals()),
        Example::new("heavy-literals-left", literals_left()),
        Example::new("heavy-readout", readout()),
        Example::new("heavy-exponential", super::deep::exponential_value(4000)),
        Example::new("heavy-slowest", SLOWEST.file()),
        Example::new("heavy-several", several()),
    ]
}

/// The slowest file that a search over shapes has found: every use of the leaf binds 64 variables in a
/// factor and is factored four times more, every step works as much as it may, and every line has as many
/// literals as a clause may have.
pub const SLOWEST: Shape = Shape {
    ground: 64,
    linked: 0,
    factors: 4,
    uses: 4069,
    wide: 25,
    occurrences: 64,
    variety: 64,
    work: 16_382,
    ending: Ending::Pairs,
    leaf_left: true,
    worked_first: false,
    unused: 0,
};

/// -p(t) +p(t) doubled to index 4,095, with 64 variables bound from each use to the next.
/// Returns the clause of index 4,095 and one of index 2,048.
fn chained(file: &mut Sketch, p: u16, f: u16) -> [u16; 2] {
    let atom = || app(p, all_variables(f));
    let one = file.clause(&[neg(atom()), pos(atom())]);
    let (mut power, mut sum) = (one, one);
    for _ in 1..12 {
        power = file.resolve(power, 2, power, 1);
        sum = file.resolve(sum, 2, power, 1);
    }
    [sum, power]
}

/// Factors on a clause of index 4,096: each loads 262,080 bindings and follows 64 chains of 4,095.
fn chains() -> Vec<u8> {
    let mut file = Sketch::new();
    let [p, f] = [2, 6].map(|arity| file.symbol(arity));
    let [sum, _] = chained(&mut file, p, f);
    let atom = || app(p, all_variables(f));
    let last = file.clause(&[neg(atom()), neg(atom())]);
    let full = file.resolve(sum, 2, last, 1);
    while file.records() < RECORDS {
        file.factor(full, 1, 2);
    }
    file.finish()
}

/// Resolutions of a clause of index 2,049 with a unit: each loads 131,072 bindings and follows one chain.
fn chains_resolve() -> Vec<u8> {
    let mut file = Sketch::new();
    let [p, f, r] = [2, 6, 1].map(|arity| file.symbol(arity));
    let [_, power] = chained(&mut file, p, f);
    let atom = || app(p, all_variables(f));
    let start = file.clause(&[pos(atom()), neg(app(r, [var(0)]))]);
    let r_unit = file.clause(&[pos(app(r, [var(2)]))]);
    let opened = file.resolve(start, 1, power, 1);
    while file.records() < RECORDS {
        file.resolve(opened, 1, r_unit, 1);
    }
    file.finish()
}

/// 1,024 leaves with four factors each, doubled; each step resolves two such derivations and walks
/// through some 16,000 clauses.
fn factored_tree() -> Vec<u8> {
    let mut file = Sketch::new();
    let [p, q] = [0, 0].map(|arity| app(file.symbol(arity), []));
    let mut seven = vec![neg(p.clone()), pos(p)];
    seven.extend(vec![pos(q.clone()); 5]);
    let mut clause = file.clause(&seven);
    for _ in 0..4 {
        clause = file.factor(clause, 3, 4);
    }
    let without = file.clause(&[neg(q)]);
    clause = file.resolve(clause, 3, without, 1);
    for _ in 0..10 {
        clause = file.resolve(clause, 2, clause, 1);
    }
    while file.records() < RECORDS {
        file.resolve(clause, 2, clause, 1);
    }
    file.finish()
}

/// 16,384 pairs in every step.
fn work_pairs() -> Vec<u8> {
    let mut file = Sketch::new();
    let [p, f, g, a] = [1, 1, 2, 0].map(|arity| file.symbol(arity));
    let a = file.application(a, &[]);
    let t = sized(&mut file, [f, g], 16_383, a);
    let atom = file.application(p, &[t]);
    let left = file.clause_of_rows(&[(true, atom)]);
    let right = file.clause_of_rows(&[(false, atom)]);
    while file.records() < RECORDS {
        file.resolve(left, 1, right, 1);
    }
    file.finish()
}

/// 4,096 pairs for each of four right literals in every step.
fn several() -> Vec<u8> {
    let mut file = Sketch::new();
    let [p, f, g, a] = [1, 1, 2, 0].map(|arity| file.symbol(arity));
    let a = file.application(a, &[]);
    let t = sized(&mut file, [f, g], 4095, a);
    let atom = file.application(p, &[t]);
    let left = file.clause_of_rows(&[(true, atom)]);
    let right = file.clause_of_rows(&[(false, atom); 4]);
    while file.records() < RECORDS {
        file.resolve_several(left, 1, right, &[1, 2, 3, 4]);
    }
    file.finish()
}

/// An occurrence test through 16,382 expressions in every step.
fn work_occurrence() -> Vec<u8> {
    let mut file = Sketch::new();
    let [p, f, g] = [1, 1, 2].map(|arity| file.symbol(arity));
    let leaf = file.variable(0);
    let t = sized(&mut file, [f, g], 16_382, leaf);
    let [open, full] = [leaf, t].map(|inner| file.application(p, &[inner]));
    let left = file.clause_of_rows(&[(true, full)]);
    let right = file.clause_of_rows(&[(false, open)]);
    while file.records() < RECORDS {
        file.resolve(left, 1, right, 1);
    }
    file.finish()
}

/// 127 literals in clauses some 4,000 right parents deep.
fn literals() -> Vec<u8> {
    many_literals(false)
}

/// 127 literals in clauses some 4,000 left parents deep.
fn literals_left() -> Vec<u8> {
    many_literals(true)
}

/// A clause grown to 127 literals, then resolved with -q +q again and again.
fn many_literals(left: bool) -> Vec<u8> {
    let mut file = Sketch::new();
    let [q, p] = [0, 1].map(|arity| file.symbol(arity));
    let (q, px) = (app(q, []), app(p, [var(0)]));
    let mut seven = vec![neg(q.clone()), pos(q.clone())];
    seven.extend(vec![pos(px); 5]);
    let more = file.clause(&seven);
    let same = file.clause(&[neg(q.clone()), pos(q)]);
    let mut clause = more;
    for _ in 0..24 {
        clause = file.resolve(more, 2, clause, 1);
    }
    // +q stands sixth from the end, and after a step to the left at the end.
    clause = file.resolve(clause, 122, same, 1);
    while file.records() < RECORDS {
        clause = if left { file.resolve(clause, 127, same, 1) } else { file.resolve(same, 2, clause, 1) };
    }
    file.finish()
}

/// 125 literals of 64 occurrences each in nearly every line: a readout of 257 MB.
fn readout() -> Vec<u8> {
    let mut file = Sketch::new();
    let [q, p, f] = [0, 3, 6].map(|arity| file.symbol(arity));
    let q = app(q, []);
    let six =
        |start: u16| apply(f, &(start..start + 6).map(|number| var(number.min(63))).collect::<Vec<_>>());
    let deep = |start: u16| apply(f, &[six(start), six(start), six(start), six(start), var(63), var(62)]);
    let atom =
        || app(p, [deep(50), apply(f, &[six(56), six(50), six(57), six(56), var(63), var(63)]), var(61)]);
    let mut seven = vec![neg(q.clone()), pos(q.clone())];
    seven.extend(vec![pos(atom()); 5]);
    let more = file.clause(&seven);
    let same = file.clause(&[neg(q.clone()), pos(q)]);
    let mut clause = more;
    for _ in 0..24 {
        clause = file.resolve(more, 2, clause, 1);
    }
    while file.records() < RECORDS {
        clause = file.resolve(same, 2, clause, 1);
    }
    file.finish()
}
