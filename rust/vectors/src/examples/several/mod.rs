//! Steps that resolve one left literal with several right ones, by the rule RIF of the lecture notes "General
//! Resolution".

mod edges;
mod refusals;

pub use edges::edges;
pub use refusals::refusals;

use yestrwyn_types::limits::RECORD_BYTES;
use yestrwyn_types::record::{kind, Record};

use super::outlines::Terms;
use super::{cases, Example};
use crate::sketch::{app, var, SignedTerm, Sketch};

/// One to four right literals of either sign, each beside the factors and the resolve that it replaces; then the
/// case sheet with kind 7 for kind 5.
pub fn cases() -> Vec<Example> {
    let mut all = Vec::new();
    for (sign, positive) in [("positive", true), ("negative", false)] {
        for count in 1..=4 {
            all.push(Example::new(&format!("several-{count}-{sign}"), at_once(count, positive)));
            all.push(Example::new(&format!("several-{count}-{sign}-in-turn"), in_turn(count, positive)));
        }
    }
    all.push(Example::new("several-of-the-clause-itself", of_itself()));
    all.push(Example::new("several-to-the-empty-clause", to_the_empty_clause()));
    let steps = |file: &[u8]| file.chunks(RECORD_BYTES).any(|record| record[0] == kind::RESOLVE);
    let sheet = cases::sheet().into_iter().filter(|example| steps(&example.file));
    all.extend(
        sheet.map(|Example { name, file, .. }| Example::new(&format!("{name}-by-kind-7"), by_kind_7(&file))),
    );
    all
}

/// A file with a record of kind 7 and one right literal for each that is of kind 5 and right in its byte 1.
pub fn by_kind_7(file: &[u8]) -> Vec<u8> {
    let mut bytes = file.to_vec();
    for record in bytes.chunks_exact_mut(RECORD_BYTES) {
        if record[..2] == [kind::RESOLVE, 0] {
            record[..2].copy_from_slice(&[kind::RESOLVE_SEVERAL, 1]);
        }
    }
    bytes
}

/// The parents: q(x) p(x,y) r(y), and p(v0,f(v1)), r(v0), p(v1,f(v2)), r(v1), .. with so many p of the other sign and
/// not more than seven literals. The right literals are 1, 3, and so on. Returns both clauses.
fn parents(file: &mut Sketch, count: u16, positive: bool) -> [u16; 2] {
    let [p, q, r, f] = [2, 1, 1, 1].map(|arity| file.symbol(arity));
    let left = [(true, app(q, [var(0)])), (positive, app(p, [var(0), var(1)])), (false, app(r, [var(1)]))];
    let right = |k: u16| -> [SignedTerm; 2] {
        [(!positive, app(p, [var(k), app(f, [var(k + 1)])])), (true, app(r, [var(k)]))]
    };
    let rights: Vec<SignedTerm> = (0..count).flat_map(right).take(7).collect();
    [file.clause(&left), file.clause(&rights)]
}

/// The step on so many right literals at once.
fn at_once(count: u16, positive: bool) -> Vec<u8> {
    let mut file = Sketch::new();
    let [left, right] = parents(&mut file, count, positive);
    let numbers: Vec<u16> = (0..count).map(|k| 2 * k + 1).collect();
    file.resolve_several(left, 2, right, &numbers);
    file.finish()
}

/// The same by factors of the right clause, which keep the first literal, and a resolve on it.
fn in_turn(count: u16, positive: bool) -> Vec<u8> {
    let mut file = Sketch::new();
    let [left, mut right] = parents(&mut file, count, positive);
    for k in 1..count {
        // Of the literals before this one, k - 1 are gone.
        right = file.factor(right, 1, 2 * k + 1 - (k - 1));
    }
    file.resolve(left, 2, right, 1);
    file.finish()
}

/// +p(x) -p(f(x)) -p(f(y)) against two of its own literals, twice over.
fn of_itself() -> Vec<u8> {
    let mut file = Sketch::new();
    let [p, f] = [1, 1].map(|arity| file.symbol(arity));
    let atom = |inner| app(p, [inner]);
    let [fx, fy] = [0, 1].map(|number| atom(app(f, [var(number)])));
    let clause = file.clause(&[(true, atom(var(0))), (false, fx), (false, fy)]);
    let twice = file.resolve_several(clause, 1, clause, &[2, 3]);
    file.resolve_several(clause, 1, twice, &[1, 2]);
    file.resolve_several(twice, 3, twice, &[1, 2]);
    file.finish()
}

/// +p(x) +p(y) and -p(x) -p(y), which no resolves alone refute: two right literals first, then one.
fn to_the_empty_clause() -> Vec<u8> {
    let mut file = Sketch::new();
    let p = file.symbol(1);
    let [px, py] = [0, 1].map(|number| app(p, [var(number)]));
    let positive = file.clause(&[(true, px.clone()), (true, py.clone())]);
    let negative = file.clause(&[(false, px), (false, py)]);
    let half = file.resolve_several(positive, 1, negative, &[1, 2]);
    file.resolve_several(half, 1, negative, &[1, 2]);
    file.finish()
}

/// A step of kind 7 as a record.
fn record(fields: &[u16]) -> Record {
    Record::new(kind::RESOLVE_SEVERAL, (fields.len() - 3) as u8, fields)
}

/// p of the left arguments against p of each of the right ones, and a good record after the step.
fn of_rows(name: &str, mut terms: Terms, left: &[u16], rights: &[&[u16]]) -> Example {
    let file = &mut terms.file;
    let p = file.symbol(left.len() as u8);
    let left = file.application(p, left);
    let rights: Vec<(bool, u16)> =
        rights.iter().map(|arguments| (false, file.application(p, arguments))).collect();
    let left = file.clause_of_rows(&[(true, left)]);
    let right = file.clause_of_rows(&rights);
    let numbers: Vec<u16> = (1..=rights.len() as u16).collect();
    file.resolve_several(left, 1, right, &numbers);
    file.symbol(1);
    Example::new(name, terms.file.finish())
}
