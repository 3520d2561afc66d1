//! Pairs that are not merged: a file that does not stand, a step, symbols that differ, and which of these comes first. Names
//! begin with the reason and the file.

use super::{of_symbols, rulebook, trip, Merge, ARITIES, P};
use crate::sketch::Sketch;

/// All of them.
pub fn examples() -> Vec<Merge> {
    let mut all = own_refusals();
    all.extend(steps());
    all.extend(differing_symbols());
    all.extend(orders());
    all
}

fn pair(name: &str, first: Sketch, second: Sketch) -> Merge {
    Merge::new(name, first.finish(), second.finish())
}

/// A file with a record more that does not stand, and a good one after it.
fn faulty(mut file: Sketch, kind: u8, count: u8, given: &[u16]) -> Sketch {
    file.fields(kind, count, given);
    file.symbol(0);
    file
}

/// A file with a step more, of kind 5, 6 or 7, and a row after it.
fn stepping(mut file: Sketch, kind: u8) -> Sketch {
    let x = file.variable(0);
    let atom = file.application(P, &[x]);
    let twice = file.clause_of_rows(&[(true, atom), (true, atom)]);
    let once = file.clause_of_rows(&[(false, atom)]);
    match kind {
        5 => file.resolve(twice, 1, once, 1),
        6 => file.factor(twice, 1, 2),
        _ => file.resolve_several(once, 1, twice, &[1, 2]),
    };
    file.variable(9);
    file
}

/// A file like the rulebook whose symbol of some number has another arity, and no more than symbols.
fn other_symbol(place: usize) -> Sketch {
    let mut arities = ARITIES;
    arities[place] = (arities[place] + 1) % 7;
    of_symbols(&arities)
}

/// Fourteen variables and symbols that begin like the others, up to the last.
fn late_symbol() -> Sketch {
    let mut file = of_symbols(&ARITIES[..4]);
    for number in 0..14 {
        file.variable(number);
    }
    file.symbol(6);
    file.symbol(6);
    file
}

/// The reason of a check in either file, or in both.
fn own_refusals() -> Vec<Merge> {
    let crossed = |file: Sketch| faulty(file, 8, 0, &[0, 9, 8]);
    vec![
        Merge::new("1-file-1", vec![1; 15], trip(4).finish()),
        Merge::new("1-file-2", rulebook(5).finish(), vec![1; 17]),
        Merge::new("1-file-1-long", vec![1; 65_552], vec![1; 65_552]),
        pair("3-file-1", faulty(rulebook(5), 0, 0, &[]), trip(4)),
        pair("3-file-2", rulebook(5), faulty(trip(4), 9, 0, &[])),
        pair("5-file-1-and-4-in-the-other", faulty(rulebook(5), 3, 0, &[7]), faulty(trip(4), 1, 7, &[])),
        pair("4-file-2", rulebook(5), faulty(trip(4), 1, 7, &[])),
        pair("5-file-2", rulebook(5), faulty(trip(4), 4, 1, &[60])),
        pair("5-file-2-symbol-of-the-first-alone", rulebook(5), faulty(trip(4), 3, 0, &[4])),
        pair("7-file-2", rulebook(5), faulty(trip(4), 4, 1, &[6])),
        pair("8-file-1", faulty(rulebook(5), 6, 0, &[0, 1, 1]), trip(4)),
        pair("16-file-1", crossed(rulebook(5)), trip(4)),
        pair("16-file-2", rulebook(5), crossed(trip(4))),
        pair("16-file-1-in-both", crossed(rulebook(5)), crossed(trip(4))),
    ]
}

/// A step in one file or in both.
fn steps() -> Vec<Merge> {
    let mut all: Vec<Merge> = (5..=7)
        .flat_map(|kind| {
            let name = |file: u8| format!("17-file-{file}-kind-{kind}");
            [
                pair(&name(1), stepping(rulebook(5), kind), trip(4)),
                pair(&name(2), rulebook(5), stepping(trip(4), kind)),
            ]
        })
        .collect();
    let twice = |file: Sketch| stepping(stepping(file, 6), 5);
    all.push(pair("17-file-1-in-both", twice(rulebook(5)), stepping(trip(4), 6)));
    all.push(pair("17-file-2-first-of-two", rulebook(5), twice(trip(4))));
    all.push(pair("17-file-1-an-accepted-file", stepping(of_symbols(&[1]), 7), Sketch::new()));
    all
}

/// A symbol that differs: the first, the last that both have, one that stands late.
fn differing_symbols() -> Vec<Merge> {
    let name = |place: usize| format!("18-file-2-symbol-{place}");
    let mut all: Vec<Merge> =
        (0..ARITIES.len()).map(|place| pair(&name(place), rulebook(5), other_symbol(place))).collect();
    all.push(pair("18-file-2-late-symbol", rulebook(5), late_symbol()));
    all.push(pair("18-file-2-first-of-two", rulebook(5), of_symbols(&[1, 2, 0, 1, 0, 0])));
    all.push(pair("18-file-2-the-longer-list", rulebook(2), of_symbols(&[1, 1, 1, 0, 0, 6])));
    // Past the first's symbols nothing differs.
    all.push(pair("symbols-past-the-first", rulebook(4), late_symbol()));
    all
}

/// Where several apply: own refusals, 17, 18 and 19, in this order.
fn orders() -> Vec<Merge> {
    let long = |mut file: Sketch| {
        for _ in 0..3000 {
            file.fields(2, 0, &[1]);
        }
        file
    };
    vec![
        pair("3-file-2-before-17-of-the-first", stepping(rulebook(5), 5), faulty(trip(4), 9, 0, &[])),
        pair("3-file-2-before-18", rulebook(5), faulty(other_symbol(1), 9, 0, &[])),
        pair("3-file-2-before-19", long(rulebook(5)), faulty(long(trip(4)), 9, 0, &[])),
        pair("17-file-2-before-18", rulebook(5), stepping(of_symbols(&[1, 1]), 5)),
        pair("17-file-1-before-18", stepping(rulebook(5), 5), other_symbol(1)),
        pair("17-file-2-before-19", long(rulebook(5)), stepping(long(trip(4)), 6)),
        pair("18-file-2-before-19", long(rulebook(5)), long(other_symbol(4))),
        pair("19-alone", long(rulebook(5)), long(trip(4))),
    ]
}
