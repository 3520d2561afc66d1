//! Days beside the clause, and what the conversions make of days.

use yestrwyn_types::Form;

use super::Formed;
use crate::examples::refutations::{factored, opposites, refuted, several, with_itself};
use crate::sketch::{app, neg, pos, Sketch};
use crate::widening::widened;

/// All of them, of the new form and of the old.
pub fn examples() -> Vec<Formed> {
    let mut all = ends();
    all.extend(steps());
    all.extend(superseded());
    all.extend(places());
    all
}

/// A file of the old form on a day, and the same in the new form.
fn both(name: &str, file: &Sketch, day: u16) -> [Formed; 2] {
    let old = file.bytes();
    [
        Formed::on(Form::Old, day, &format!("old-{name}"), old.to_vec()),
        Formed::on(Form::New, day, &format!("new-{name}"), widened(old)),
    ]
}

/// +p and -p refuted, where +p has days: at the ends of these and beside them, and days whose low and high bytes differ in size.
fn ends() -> Vec<Formed> {
    let windows: [(u16, u16, &[u16]); 8] = [
        (10, 20, &[9, 10, 20, 21]),
        (15, 15, &[14, 15, 16]),
        (0, 0, &[0, 1, 256]),
        (65_535, 65_535, &[255, 65_534, 65_535]),
        (0, 65_534, &[65_534, 65_535]),
        (1, 65_535, &[0, 1]),
        (255, 256, &[1, 255, 256, 257]),
        (0, 65_535, &[0, 32_768, 65_535]),
    ];
    let on_days = |&(first, last, days): &(u16, u16, &[u16])| {
        let mut file = refuted(1);
        file.window(0, first, last);
        let name = format!("{first}-to-{last}");
        days.iter().flat_map(|&day| both(&name, &file, day)).collect::<Vec<Formed>>()
    };
    windows.iter().flat_map(on_days).collect()
}

/// A step of every kind on a clause with days.
fn steps() -> Vec<Formed> {
    let files = [
        ("resolve", refuted(2)),
        ("with-itself", with_itself()),
        ("factor", factored()),
        ("several", several()),
    ];
    let windows = |(name, mut file): (&str, Sketch)| {
        file.window(1, 300, 400);
        file.window(0, 301, 399);
        [300, 301].iter().flat_map(|&day| both(name, &file, day)).collect::<Vec<Formed>>()
    };
    files.into_iter().flat_map(windows).collect()
}

/// A name, and records of days: the clause, its first day and its last.
type Windows<'a> = (&'a str, &'a [(u16, u16, u16)]);

/// Days that are superseded, and days of 0 to 65,535 written out in the old form.
fn superseded() -> Vec<Formed> {
    let windows: [Windows<'_>; 7] = [
        ("superseded-once", &[(0, 1, 2), (0, 10, 20)]),
        ("superseded-three-times", &[(0, 1, 2), (0, 3, 40), (0, 30, 60), (0, 10, 20)]),
        ("superseded-in-turn", &[(0, 1, 2), (1, 5, 9), (0, 10, 20), (1, 10, 15), (0, 12, 18)]),
        ("superseded-by-the-same", &[(0, 10, 20), (0, 10, 20)]),
        ("always-written-out", &[(0, 0, 65_535)]),
        ("always-supersedes", &[(0, 1, 2), (0, 0, 65_535)]),
        ("always-is-superseded", &[(0, 0, 65_535), (0, 10, 20)]),
    ];
    let of = |&(name, windows): &Windows<'_>| {
        let mut file = refuted(1);
        windows.iter().for_each(|&(clause, first, last)| file.window(clause, first, last));
        [1, 10, 20].iter().flat_map(|&day| both(name, &file, day)).collect::<Vec<Formed>>()
    };
    windows.iter().flat_map(of).collect()
}

/// Records of kind 8 before and after the uses of their clause, and clauses with days after derived ones.
fn places() -> Vec<Formed> {
    let mut before_and_after = opposites(1);
    before_and_after.window(0, 1, 2);
    before_and_after.resolve(0, 1, 1, 1);
    before_and_after.window(0, 10, 20);
    let mut all_before = opposites(1);
    all_before.window(0, 10, 20);
    all_before.resolve(0, 1, 1, 1);
    // Clauses 2 and 5 are derived, so that the last two input clauses have the numbers 3 and 4 and days of their own.
    let mut after_derived = refuted(1);
    let q = after_derived.symbol(0);
    let yes = after_derived.clause(&[pos(app(q, []))]);
    after_derived.window(0, 50, 60);
    let no = after_derived.clause(&[neg(app(q, []))]);
    after_derived.window(yes, 10, 20);
    after_derived.resolve(yes, 1, no, 1);
    after_derived.window(no, 12, 55);
    let mut unused = refuted(1);
    let r = unused.symbol(0);
    let other = unused.clause(&[pos(app(r, []))]);
    unused.window(other, 7, 7);
    let files = [
        ("before-and-after", before_and_after),
        ("before-its-uses", all_before),
        ("after-derived-clauses", after_derived),
        ("unused", unused),
        ("no-days", refuted(1)),
        ("empty", Sketch::new()),
    ];
    files.iter().flat_map(|(name, file)| [1, 12, 55].map(|day| both(name, file, day)).concat()).collect()
}
