//! Pairs of files that are merged, by name: what is written, and what is refused.

mod lengths;
mod refusals;

use crate::sketch::{app, neg, pos, var, Sketch};

/// Two files with a name for the pair.
#[derive(Clone, Debug)]
pub struct Merge {
    pub name: String,
    pub first: Vec<u8>,
    pub second: Vec<u8>,
}

impl Merge {
    /// A named pair.
    pub fn new(name: &str, first: Vec<u8>, second: Vec<u8>) -> Merge {
        Merge { name: name.to_string(), first, second }
    }
}

/// All of them: lists of symbols, parts that are missing, rows that repeat, windows, lengths, and refusals.
pub fn examples() -> Vec<Merge> {
    let mut all = symbols();
    all.extend(missing_parts());
    all.extend(rows());
    all.extend(windows());
    all.extend(lengths::examples());
    all.extend(refusals::examples());
    all
}

/// The arities of all files below, or a beginning of them: p of one argument, q of two, f of one, a, b.
const ARITIES: [u8; 5] = [1, 2, 1, 0, 0];
const P: u16 = 0;
const Q: u16 = 1;
const F: u16 = 2;
const A: u16 = 3;

/// A file of symbols alone.
fn of_symbols(arities: &[u8]) -> Sketch {
    let mut file = Sketch::new();
    for &arity in arities {
        file.symbol(arity);
    }
    file
}

/// A rulebook of the first so many symbols, two at least: -p(x) +q(x,y), and -q(x,x).
fn rulebook(symbols: usize) -> Sketch {
    let mut file = of_symbols(&ARITIES[..symbols]);
    file.clause(&[neg(app(P, [var(0)])), pos(app(Q, [var(0), var(1)]))]);
    file.clause(&[neg(app(Q, [var(0), var(0)]))]);
    file
}

/// Facts of a trip, of the first so many symbols, four at least: +p(f(a)), and +p(x).
fn trip(symbols: usize) -> Sketch {
    let mut file = of_symbols(&ARITIES[..symbols]);
    file.clause(&[pos(app(P, [app(F, [app(A, [])])]))]);
    file.clause(&[pos(app(P, [var(0)]))]);
    file
}

/// One list of symbols begins the other, either way, or is the same.
fn symbols() -> Vec<Merge> {
    let pair = |name: &str, first: Sketch, second: Sketch| Merge::new(name, first.finish(), second.finish());
    vec![
        pair("equal-symbols", rulebook(5), trip(5)),
        pair("first-list-begins-the-second", rulebook(2), trip(5)),
        pair("second-list-begins-the-first", rulebook(5), trip(4)),
        pair("symbols-between-the-records", rulebook(3), scattered()),
        pair("the-other-way-round", trip(5), rulebook(2)),
        pair("a-file-with-itself", trip(4), trip(4)),
        pair("symbols-alone-twice", of_symbols(&ARITIES), of_symbols(&ARITIES)),
        pair("symbols-alone-and-more", of_symbols(&ARITIES[..2]), of_symbols(&ARITIES)),
    ]
}

/// A file each of whose symbols stands just before it is used.
fn scattered() -> Sketch {
    let mut file = of_symbols(&ARITIES[..1]);
    let x = file.variable(0);
    let atom = file.application(P, &[x]);
    file.clause_of_rows(&[(true, atom)]);
    file.symbol(ARITIES[1]);
    let atom = file.application(Q, &[x, x]);
    file.clause_of_rows(&[(true, atom), (false, atom)]);
    file.symbol(ARITIES[2]);
    file.symbol(ARITIES[3]);
    let a = file.application(A, &[]);
    let term = file.application(F, &[a]);
    let atom = file.application(P, &[term]);
    file.clause_of_rows(&[(false, atom)]);
    file
}

/// A file, or a part of it, is empty.
fn missing_parts() -> Vec<Merge> {
    let rows_alone = || {
        let mut file = of_symbols(&ARITIES[..1]);
        let x = file.variable(0);
        file.application(P, &[x]);
        file
    };
    let mut empty_clause = Sketch::new();
    let clause = empty_clause.clause(&[]);
    empty_clause.window(clause, 3, 4);
    let pair = |name: &str, first: Sketch, second: Sketch| Merge::new(name, first.finish(), second.finish());
    vec![
        pair("both-empty", Sketch::new(), Sketch::new()),
        pair("first-empty", Sketch::new(), trip(4)),
        pair("second-empty", rulebook(5), Sketch::new()),
        pair("second-without-symbols", rulebook(5), empty_clause.clone()),
        pair("first-without-symbols", empty_clause.clone(), rulebook(5)),
        pair("neither-with-symbols", empty_clause.clone(), empty_clause),
        pair("second-without-rows", rulebook(5), of_symbols(&ARITIES)),
        pair("second-without-clauses", rulebook(5), rows_alone()),
        pair("first-without-clauses", rows_alone(), rulebook(5)),
    ]
}

/// Rows that repeat within a file and across both, and every field of a row and of a clause in use.
fn rows() -> Vec<Merge> {
    let repeating = || {
        let mut file = of_symbols(&ARITIES);
        let [x, again] = [0, 0].map(|number| file.fields(2, 0, &[number]));
        let [one, other] = [x, again].map(|row| file.fields(3, 1, &[P, row]));
        file.clause_of_rows(&[(true, one), (false, other)]);
        file
    };
    let wide = || {
        let mut file = of_symbols(&[6, 0]);
        let a = file.application(1, &[]);
        let [x, y] = [0, 63].map(|number| file.variable(number));
        let row = file.application(0, &[a, x, y, a, x, y]);
        let other = file.application(0, &[row, y, x, a, row, a]);
        let literals = [true, false, true, true, false, false, true];
        file.clause_of_rows(&literals.map(|sign| (sign, if sign { row } else { other })));
        file
    };
    vec![
        Merge::new("rows-that-repeat", repeating().finish(), repeating().finish()),
        Merge::new("rows-that-repeat-the-first-file", rulebook(5).finish(), repeating().finish()),
        Merge::new("every-field", wide().finish(), wide().finish()),
    ]
}

/// Windows in either file, and superseded in the second.
fn windows() -> Vec<Merge> {
    let days = |mut file: Sketch, windows: &[(u16, u16, u16)]| {
        windows.iter().for_each(|&(clause, first, last)| file.window(clause, first, last));
        file.finish()
    };
    let superseded = [(0, 10, 20), (1, 5, 5), (0, 15, 25), (1, 0, u16::MAX)];
    vec![
        Merge::new("windows-in-the-first", days(rulebook(5), &[(1, 10, 20)]), trip(5).finish()),
        Merge::new("windows-in-the-second", rulebook(5).finish(), days(trip(5), &[(0, 10, 20), (1, 0, 0)])),
        Merge::new("windows-superseded-in-the-second", rulebook(5).finish(), days(trip(5), &superseded)),
        Merge::new("windows-in-both", days(rulebook(5), &superseded), days(trip(5), &superseded)),
    ]
}
