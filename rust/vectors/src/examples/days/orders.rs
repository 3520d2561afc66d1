//! Records of kind 8 in any place: superseding others, before and after steps, among repeated rows.

use yestrwyn_types::limits::RECORD_BYTES;
use yestrwyn_types::record::{kind, Record};

use super::{on_days, window_bytes, Example};
use crate::examples::cases::case_a;
use crate::examples::refutations::{opposites, refuted};
use crate::repeating::rows_twice;
use crate::sketch::{app, neg, pos, var, Sketch};

/// All of them.
pub fn examples() -> Vec<Example> {
    let mut all = superseded();
    all.extend(between_steps());
    all.extend(places());
    all.extend(repeated_rows());
    all
}

/// Two and three windows for one clause, all after the steps: the last record counts, whatever its days.
fn superseded() -> Vec<Example> {
    let example = |name: &str, windows: &[(u16, u16)], days: &[u16]| {
        let mut file = refuted(1);
        for &(first, last) in windows {
            file.window(0, first, last);
        }
        on_days(&format!("superseded-{name}"), &file.finish(), days)
    };
    let all = [
        example("by-later-days", &[(10, 20), (30, 40)], &[15, 25, 30, 40, 41]),
        example("by-earlier-days", &[(30, 40), (10, 20)], &[15, 25, 30, 40]),
        example("by-days-within", &[(10, 40), (20, 30)], &[15, 20, 30, 35]),
        example("by-days-around", &[(20, 30), (10, 40)], &[9, 15, 35, 41]),
        example("by-always", &[(20, 30), (0, 65_535)], &[0, 25, 65_535]),
        example("always", &[(0, 65_535), (20, 30)], &[0, 25, 65_535]),
        example("by-the-same", &[(10, 20), (10, 20)], &[9, 10, 20, 21]),
        example("twice", &[(10, 20), (30, 40), (50, 60)], &[15, 35, 55]),
        example("twice-and-back", &[(10, 20), (30, 40), (10, 20)], &[15, 35]),
    ];
    all.concat()
}

/// Windows before, between and after the steps that use a clause; and of two clauses in turn.
fn between_steps() -> Vec<Example> {
    let mut before = opposites(2);
    before.window(0, 10, 20);
    before.resolve(0, 1, 1, 1);
    before.resolve(2, 1, 3, 1);
    let mut between = opposites(1);
    between.window(0, 10, 20);
    between.resolve(0, 1, 1, 1);
    between.window(0, 30, 40);
    between.resolve(0, 1, 1, 1);
    let mut after = between.clone();
    after.window(0, 50, 60);
    let mut in_turn = refuted(1);
    for (clause, first, last) in [(0, 10, 20), (1, 10, 20), (0, 15, 40), (1, 30, 40)] {
        in_turn.window(clause, first, last);
    }
    let all = [
        on_days("window-before-its-steps", &before.finish(), &[9, 10, 20, 21]),
        on_days("window-between-two-steps", &between.finish(), &[15, 30, 35]),
        on_days("window-after-all-steps", &after.finish(), &[15, 35, 55]),
        on_days("windows-in-turn", &in_turn.finish(), &[12, 18, 25, 30, 40, 41]),
    ];
    all.concat()
}

/// A window after each record of case A from its first clause on: numbers of symbols, rows and clauses are as before. And a
/// window between records of every two kinds.
fn places() -> Vec<Example> {
    let mut everywhere = Vec::new();
    let mut clauses = 0;
    for record in case_a().chunks_exact(RECORD_BYTES) {
        everywhere.extend_from_slice(record);
        clauses += u16::from(record[0] >= kind::INPUT);
        if clauses > 0 {
            everywhere.extend(window_bytes(0, 10 + clauses, 20));
        }
    }
    let all = [
        on_days("window-after-each-record", &everywhere, &[14, 15, 20, 21]),
        on_days("window-between-all-kinds", &all_kinds(), &[0, 9, 10, 15, 20, 21, 29, 30, 40, 41, 65_535]),
    ];
    all.concat()
}

/// A window between every two records, and after the last; each of kinds 1 to 7 comes after each, itself among them. Windows are
/// of the empty clause 0, of +p(x) and of -p(x) -p(y) in turn: days 10 to 20, 15 to 40 and 30 to 60 by the last of each,
/// and a day later for every one before it.
fn all_kinds() -> Vec<u8> {
    let mut plain = Sketch::new();
    let _empty = plain.clause(&[]);
    let p = plain.symbol(1);
    let unit = plain.clause(&[pos(app(p, [var(0)]))]);
    let rule = plain.clause(&[neg(app(p, [var(0)])), neg(app(p, [var(1)]))]);
    for (place, kind) in (0..).zip(each_after_each()) {
        match kind {
            kind::SYMBOL => plain.symbol(0),
            kind::VARIABLE => plain.fields(kind, 0, &[place]),
            // Of the first four rows, also a row again and a row of a row.
            kind::APPLICATION => plain.fields(kind, 1, &[p, place % 4]),
            kind::INPUT => plain.clause(&[pos(app(p, [var(1)])), neg(app(p, [var(0)]))]),
            kind::RESOLVE => plain.resolve(unit, 1, rule, 2),
            kind::FACTOR => plain.factor(rule, 1, 2),
            _ => plain.resolve_several(unit, 1, rule, &[1, 2]),
        };
    }
    let (mut file, mut clauses) = (Vec::new(), 0);
    for (place, record) in plain.bytes().chunks_exact(RECORD_BYTES).enumerate() {
        file.extend_from_slice(record);
        clauses += usize::from(record[0] == kind::INPUT);
        let clause = (place % 3).min(clauses - 1);
        let (first, last) = [(10, 20), (15, 40), (30, 60)][clause];
        let later = (usize::from(plain.records()) - 1 - place) as u16 / 3;
        file.extend(window_bytes(clause as u16, first + later, last + later));
    }
    file
}

/// Kinds 1 to 7 in an order in which each comes straight after each.
fn each_after_each() -> Vec<u8> {
    let mut kinds = Vec::new();
    for one in kind::SYMBOL..=kind::RESOLVE_SEVERAL {
        kinds.push(one);
        kinds.extend((one + 1..=kind::RESOLVE_SEVERAL).flat_map(|other| [one, other]));
    }
    kinds.push(kind::SYMBOL);
    kinds
}

/// Case A with every row twice, and a window before and after each clause that a step made.
fn repeated_rows() -> Vec<Example> {
    let mut file = Vec::new();
    for record in rows_twice(&case_a()).file.chunks_exact(RECORD_BYTES) {
        if record[0] == kind::RESOLVE {
            file.extend(window_bytes(1, 5, 8));
        }
        file.extend_from_slice(record);
    }
    file.extend(window_bytes(1, 10, 20));
    // A row that repeats another, after a window.
    let again = Record::new(kind::VARIABLE, 0, &[0]).to_bytes();
    file.extend_from_slice(&again);
    on_days("window-among-repeated-rows", &file, &[6, 9, 10, 20, 21])
}
