//! Which records of days are kept: of each clause that is kept the last one, in its place.

use super::on;
use crate::examples::refutations::{opposites, refuted};
use crate::examples::Example;
use crate::sketch::{app, pos, Sketch};

/// All of them.
pub fn examples() -> Vec<Example> {
    let mut all = windows();
    all.extend(places());
    all.extend(empty_clauses());
    all
}

/// A name, and records of days: the clause, its first day and its last.
type Windows<'a> = (&'a str, &'a [(u16, u16, u16)]);

/// Days after the last step of +p, -p and the empty clause, then an unused clause, 3; on day 15.
fn windows() -> Vec<Example> {
    let windows: [Windows<'_>; 9] = [
        ("days-after-the-last-step", &[(0, 10, 20)]),
        ("days-of-both-clauses", &[(1, 10, 20), (0, 15, 15)]),
        ("days-superseded-once", &[(0, 1, 2), (0, 10, 20)]),
        ("days-superseded-in-turn", &[(0, 1, 2), (1, 5, 9), (0, 10, 20), (1, 10, 15), (0, 12, 18)]),
        ("days-superseded-by-the-same", &[(0, 10, 20), (0, 10, 20)]),
        ("always-is-a-record-and-stays", &[(0, 0, 65_535)]),
        ("always-supersedes", &[(0, 1, 2), (0, 0, 65_535)]),
        ("always-is-superseded", &[(0, 0, 65_535), (0, 10, 20)]),
        ("days-of-an-unused-clause", &[(3, 10, 20), (0, 10, 20), (3, 0, 65_535)]),
    ];
    let of = |&(name, windows): &Windows<'_>| {
        let mut file = refuted(1);
        let unused = file.symbol(0);
        file.clause(&[pos(app(unused, []))]);
        windows.iter().for_each(|&(clause, first, last)| file.window(clause, first, last));
        on(15, name, file)
    };
    windows.iter().map(of).collect()
}

/// Records of days before, between and after the records that use their clause, with numbers that close up around them.
fn places() -> Vec<Example> {
    let mut between = Sketch::new();
    let [other, p] = [0; 2].map(|arity| between.symbol(arity));
    let unused = between.clause(&[pos(app(other, []))]);
    let yes = between.clause(&[pos(app(p, []))]);
    between.window(yes, 1, 2);
    between.window(unused, 10, 20);
    let no = between.clause(&[(false, app(p, []))]);
    between.window(yes, 10, 20);
    between.resolve(yes, 1, unused + 2, 1);
    between.window(unused, 3, 4);
    between.window(no, 0, 300);
    let mut early = opposites(1);
    early.window(0, 10, 20);
    early.symbol(4);
    early.resolve(0, 1, 1, 1);
    let mut late = opposites(1);
    late.window(0, 1, 2);
    late.resolve(0, 1, 1, 1);
    late.symbol(4);
    late.window(0, 256, 511);
    vec![
        on(15, "days-between-records-that-go", between),
        on(20, "days-before-the-step", early),
        on(300, "days-before-the-step-superseded-after-it", late),
    ]
}

/// Several empty clauses, of which the accepted one is not the first, on days that tell them apart.
fn empty_clauses() -> Vec<Example> {
    let mut file = refuted(3);
    for (clause, first, last) in [(1, 10, 20), (2, 15, 30), (5, 25, 40)] {
        file.window(clause, first, last);
    }
    let days = [(12, "first"), (15, "first-of-two"), (21, "second"), (30, "second-of-two"), (31, "third")];
    days.iter().map(|&(day, which)| on(day, &format!("the-{which}-empty-clause"), file.clone())).collect()
}
