//! Windows and the days at their ends, on which a file is accepted or open.

use super::{on_days, Example};
use crate::examples::refutations::{factored, opposites, refuted, several, with_itself};
use crate::sketch::{app, neg, pos, Sketch};

/// All of them.
pub fn examples() -> Vec<Example> {
    let mut all = ends();
    all.extend(uses());
    all.extend(several_empty());
    all.extend(input_clauses());
    all
}

/// +p and -p refuted, where +p has a window: the days at its ends and beside them.
fn ends() -> Vec<Example> {
    let example = |first: u16, last: u16, days: &[u16]| {
        let mut file = refuted(1);
        file.window(0, first, last);
        on_days(&format!("{first}-to-{last}"), &file.finish(), days)
    };
    let all = [
        example(10, 20, &[0, 9, 10, 11, 15, 19, 20, 21, 65_535]),
        example(15, 15, &[14, 15, 16]),
        example(0, 65_535, &[0, 1, 32_768, 65_535]),
        example(0, 0, &[0, 1, 256, 65_535]),
        example(65_535, 65_535, &[0, 255, 65_534, 65_535]),
        example(0, 65_534, &[65_534, 65_535]),
        example(1, 65_535, &[0, 1]),
        // Days whose low and high bytes differ in size.
        example(255, 256, &[1, 254, 255, 256, 257]),
        example(256, 511, &[1, 255, 256, 511, 512]),
        example(32_767, 32_768, &[32_766, 32_767, 32_768, 32_769]),
    ];
    all.concat()
}

/// A clause with a window that is used by a step of every kind, on the left and on the right, twice, and not at all.
fn uses() -> Vec<Example> {
    let window = |name: &str, mut file: Sketch, clause: u16| {
        file.window(clause, 10, 20);
        on_days(name, &file.finish(), &[9, 10, 20, 21])
    };
    let mut unused = refuted(1);
    let q = unused.symbol(0);
    let other = unused.clause(&[pos(app(q, []))]);
    let all = [
        window("left-parent", refuted(1), 0),
        window("right-parent", refuted(1), 1),
        window("unused", unused, other),
        window("with-itself", with_itself(), 0),
        window("factored", factored(), 0),
        window("several-left", several(), 0),
        window("several-right", several(), 1),
        window("far-away", far_away(), 0),
    ];
    all.concat()
}

/// +p0, then rules that lead from each symbol to the next, up to -p20.
fn far_away() -> Sketch {
    let mut file = Sketch::new();
    let symbols: Vec<u16> = (0..=20).map(|_| file.symbol(0)).collect();
    let first = file.clause(&[pos(app(symbols[0], []))]);
    let mut rules: Vec<u16> = Vec::new();
    for pair in symbols.windows(2) {
        rules.push(file.clause(&[neg(app(pair[0], [])), pos(app(pair[1], []))]));
    }
    rules.push(file.clause(&[neg(app(symbols[20], []))]));
    rules.into_iter().fold(first, |reached, rule| file.resolve(reached, 1, rule, 1));
    file
}

/// Several empty clauses, of which the lowest in force is accepted.
fn several_empty() -> Vec<Example> {
    let mut two = refuted(2);
    two.window(0, 10, 20);
    // The first two empty clauses have days in common, the last two as well.
    let mut three = refuted(3);
    for (clause, first, last) in [(1, 10, 20), (2, 15, 30), (5, 25, 40)] {
        three.window(clause, first, last);
    }
    let mut middle = refuted(3);
    middle.window(0, 100, 200);
    middle.window(4, 100, 200);
    let mut none = refuted(2);
    none.window(1, 10, 20);
    none.window(2, 30, 40);
    // The third empty clause is made of one clause out of force and one in force.
    let mut mixed = refuted(2);
    mixed.window(0, 10, 20);
    mixed.window(3, 30, 40);
    mixed.resolve(0, 1, 1, 1);
    let all = [
        on_days("two-empty-clauses", &two.finish(), &[9, 10, 20, 21]),
        on_days("three-empty-clauses", &three.finish(), &[9, 10, 14, 15, 20, 21, 24, 25, 30, 31, 40, 41]),
        on_days("middle-of-three", &middle.finish(), &[0, 99, 100, 200, 201]),
        on_days("none-of-two", &none.finish(), &[0, 10, 25, 30, 50]),
        on_days("two-of-three-alike", &mixed.finish(), &[10, 25, 30]),
    ];
    all.concat()
}

/// Windows without a step: of empty input clauses, and in files without any empty clause.
fn input_clauses() -> Vec<Example> {
    let mut empty = Sketch::new();
    let clause = empty.clause(&[]);
    empty.window(clause, 10, 20);
    let mut two = Sketch::new();
    let first = two.clause(&[]);
    let second = two.clause(&[]);
    two.window(second, 15, 30);
    two.window(first, 10, 20);
    let mut open = opposites(1);
    open.window(0, 10, 20);
    let all = [
        on_days("empty-input-clause", &empty.finish(), &[9, 10, 20, 21]),
        on_days("two-empty-input-clauses", &two.finish(), &[9, 10, 15, 20, 21, 30, 31]),
        on_days("no-empty-clause", &open.finish(), &[9, 15]),
        on_days("no-record", &[], &[0, 1, 65_535]),
    ];
    all.concat()
}
