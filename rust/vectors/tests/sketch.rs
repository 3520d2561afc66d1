//! Sketched files: equal rows are shared, numbers are the checker's, and any record can be written.

use yestrwyn_types::record::{kind, read, Record};
use yestrwyn_vectors::outcome::outcome;
use yestrwyn_vectors::sketch::{app, apply, neg, pos, var, Sketch};

#[test]
fn equal_rows_are_written_once() {
    let mut file = Sketch::new();
    let [f, a] = [2, 0].map(|arity| file.symbol(arity));
    let inner = app(f, [app(a, []), var(3)]);
    let first = file.term(&app(f, [inner.clone(), inner.clone()]));
    let second = file.term(&app(f, [inner.clone(), inner]));
    assert_eq!(first, second);
    // Two symbols, then a, v3, f(a,v3), f(f(a,v3),f(a,v3)).
    assert_eq!((first, file.records()), (3, 6));
    assert_eq!(outcome(file.bytes()).answer.numbers(), [0, 0, 0, 2, 4, 0, 0]);
}

#[test]
fn numbers_are_those_of_the_checker() {
    let mut file = Sketch::new();
    let p = file.symbol(1);
    let left = file.clause(&[pos(app(p, [var(0)])), pos(app(p, [var(1)]))]);
    let q = file.symbol(0);
    let right = file.clause(&[neg(app(p, [app(q, [])]))]);
    let factored = file.factor(left, 1, 2);
    let empty = file.resolve(factored, 1, right, 1);
    assert_eq!((p, q, left, right, factored, empty), (0, 1, 0, 1, 2, 3));
    assert_eq!(outcome(&file.finish()).answer.numbers(), [1, 3, 0, 2, 6, 4, 2]);
}

#[test]
fn several_right_literals_are_written_as_given() {
    let mut file = Sketch::new();
    let p = file.symbol(1);
    let left = file.clause(&[pos(app(p, [var(0)]))]);
    let right = file.clause(&[neg(app(p, [var(0)])), neg(app(p, [var(1)]))]);
    assert_eq!(file.resolve_several(left, 1, right, &[1, 2]), 2);
    assert_eq!(outcome(file.bytes()).answer.numbers(), [1, 2, 0, 1, 4, 3, 2]);
    assert_eq!(file.resolve_several(left, 1, right, &[1, 2, 3, 4, 5]), 3);
    let bytes = file.finish();
    let last = read(&bytes, (bytes.len() / 16 - 1) as u16).expect("a record");
    assert_eq!((last.kind, last.count, last.fields), (7, 5, [left, 1, right, 1, 2, 3, 4]));
    assert_eq!(outcome(&bytes).answer.numbers()[..2], [2, 4]);
}

#[test]
fn raw_records_are_written_as_they_are() {
    let mut file = Sketch::new();
    let odd = Record { kind: 200, count: 9, fields: [1, 2, 3, 4, 5, 6, 65_535] };
    assert_eq!(file.raw(odd), 0);
    let row = Record { kind: kind::VARIABLE, count: 0, fields: [7, 0, 0, 0, 0, 0, 0] };
    assert_eq!((file.raw(row), file.raw(row)), (0, 1), "the lower layer repeats rows");
    assert_eq!(file.variable(7), 0, "the upper layer shares the first");
    let bytes = file.finish();
    assert_eq!(read(&bytes, 0), Some(odd));
    assert_eq!(bytes[..6], [200, 9, 1, 0, 2, 0]);
    assert_eq!(bytes[14..16], [255, 255]);
    assert_eq!(read(&bytes, 3), None);
}

#[test]
fn too_much_of_anything_gives_a_file_that_is_refused() {
    let mut file = Sketch::new();
    let f = file.symbol(6);
    let seven: Vec<_> = (0..7).map(var).collect();
    file.term(&apply(f, &seven));
    assert_eq!(outcome(&file.finish()).answer.numbers()[..3], [2, 4, 8]);
    let mut file = Sketch::new();
    let a = file.symbol(0);
    file.clause(&vec![pos(app(a, [])); 300]);
    assert_eq!(outcome(&file.finish()).answer.numbers()[..3], [2, 4, 2]);
}

#[test]
fn deep_terms_are_built_without_deep_recursion() {
    let mut file = Sketch::new();
    let [p, f] = [1, 1].map(|arity| file.symbol(arity));
    let deep = (0..4000).fold(var(0), |term, _| app(f, [term]));
    file.clause(&[pos(app(p, [deep]))]);
    let outcome = outcome(&file.finish());
    assert_eq!(outcome.answer.numbers(), [0, 0, 0, 2, 4002, 1, 0]);
    assert_eq!(outcome.readout, b"open\n0 1 +~\n");
}
