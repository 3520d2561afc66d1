//! Files refused for each reason, and records to which several reasons apply.

use yestrwyn_types::record::{kind, Record};

use super::{outlines, repeats, several, Example};
use crate::sketch::{app, neg, pos, var, Sketch, Term};

/// Each is a standing file and one more record, which is refused with the reason in its name.
pub fn examples() -> Vec<Example> {
    let mut all = kinds();
    all.extend(rows());
    all.extend(clauses());
    all.extend(resolves());
    all.extend(factors());
    all.extend(unifications());
    all.extend(unused_bytes());
    all.extend(outlines::refusals());
    all.extend(repeats::refusals());
    all.extend(several::refusals());
    all
}

/// Numbers in the standing file: symbols p(·,·), f(·), a, b; rows; five clauses.
/// Rows: 0 v0, 1 v1, 2 p(v0,v1), 3 f(v0), 4 p(v1,f(v0)), 5 a, 6 b, 7 p(a,b), 8 p(v0,v0).
/// Clauses: 0 +2 -4; 1 -7; 2 +7 +7 -2; 3 +8; 4 -4; 5 empty.
fn standing() -> Sketch {
    let mut file = Sketch::new();
    let [p, f, a, b] = [2, 1, 0, 0].map(|arity| file.symbol(arity));
    let (v0, v1) = (var(0), var(1));
    let fv0 = app(f, [v0.clone()]);
    let xy = app(p, [v0.clone(), v1.clone()]);
    let yf = app(p, [v1, fv0]);
    let ab = app(p, [app(a, []), app(b, [])]);
    file.clause(&[pos(xy.clone()), neg(yf.clone())]);
    file.clause(&[neg(ab.clone())]);
    file.clause(&[pos(ab.clone()), pos(ab), neg(xy)]);
    file.clause(&[pos(app(p, [v0.clone(), v0]))]);
    file.clause(&[neg(yf)]);
    file.clause(&[]);
    file
}

/// The standing file with one record after it, and a good record after that.
pub(super) fn with(name: &str, kind: u8, count: u8, fields: [u16; 7]) -> Example {
    let mut file = standing();
    file.raw(Record { kind, count, fields });
    file.symbol(1);
    Example::new(name, file.finish())
}

/// Reason 3, and reasons of symbols.
fn kinds() -> Vec<Example> {
    vec![
        with("stands", kind::SYMBOL, 6, [0; 7]),
        with("3-kind-0", 0, 0, [0; 7]),
        with("stands-kind-7", 7, 1, [0, 1, 1, 1, 0, 0, 0]),
        with("3-kind-9", 9, 0, [0; 7]),
        with("3-kind-255", 255, 255, [65_535; 7]),
        with("4-symbol-arity-7", kind::SYMBOL, 7, [0; 7]),
        with("4-symbol-field-a", kind::SYMBOL, 1, [1, 0, 0, 0, 0, 0, 0]),
        with("4-symbol-field-g", kind::SYMBOL, 1, [0, 0, 0, 0, 0, 0, 256]),
    ]
}

/// Reasons 4 and 5 of rows. One that is there already stands as well as any other.
fn rows() -> Vec<Example> {
    use kind::{APPLICATION as APP, VARIABLE as VAR};
    vec![
        with("stands-variable", VAR, 0, [2, 0, 0, 0, 0, 0, 0]),
        with("4-variable-64", VAR, 0, [64, 0, 0, 0, 0, 0, 0]),
        with("4-variable-byte-1", VAR, 1, [2, 0, 0, 0, 0, 0, 0]),
        with("4-variable-field-b", VAR, 0, [2, 1, 0, 0, 0, 0, 0]),
        with("4-variable-again", VAR, 0, [0, 0, 0, 0, 0, 0, 1]),
        with("stands-variable-again", VAR, 0, [1, 0, 0, 0, 0, 0, 0]),
        with("stands-application", APP, 2, [0, 5, 5, 0, 0, 0, 0]),
        with("4-application-7-arguments", APP, 7, [0, 5, 5, 5, 5, 5, 5]),
        with("4-application-unused", APP, 2, [0, 5, 5, 5, 0, 0, 0]),
        with("4-before-5-application", APP, 1, [9, 99, 1, 0, 0, 0, 0]),
        with("5-application-symbol", APP, 0, [4, 0, 0, 0, 0, 0, 0]),
        with("5-application-symbol-65535", APP, 0, [65_535, 0, 0, 0, 0, 0, 0]),
        with("5-application-row", APP, 2, [0, 5, 9, 0, 0, 0, 0]),
        with("5-application-row-of-itself", APP, 1, [1, 9, 0, 0, 0, 0, 0]),
        with("5-application-too-few", APP, 1, [0, 5, 0, 0, 0, 0, 0]),
        with("5-application-too-many", APP, 1, [2, 5, 0, 0, 0, 0, 0]),
        with("stands-application-again", APP, 2, [0, 5, 6, 0, 0, 0, 0]),
        with("stands-constant-again", APP, 0, [2, 0, 0, 0, 0, 0, 0]),
    ]
}

/// Reasons 4, 5 and 7 of input clauses.
fn clauses() -> Vec<Example> {
    use kind::INPUT;
    vec![
        with("stands-clause", INPUT, 2, [4, 17, 0, 0, 0, 0, 0]),
        with("stands-clause-on-functions", INPUT, 2, [7, 10, 0, 0, 0, 0, 0]),
        with("4-clause-8-literals", INPUT, 8, [4; 7]),
        with("4-clause-unused", INPUT, 1, [4, 1, 0, 0, 0, 0, 0]),
        with("4-clause-unused-of-none", INPUT, 0, [1, 0, 0, 0, 0, 0, 0]),
        with("4-before-5-clause", INPUT, 1, [99, 0, 0, 0, 0, 0, 1]),
        with("5-clause-row", INPUT, 1, [18, 0, 0, 0, 0, 0, 0]),
        with("5-clause-row-32767", INPUT, 7, [4, 4, 4, 4, 4, 4, 65_535]),
        with("5-before-7-clause", INPUT, 2, [0, 18, 0, 0, 0, 0, 0]),
        with("7-clause", INPUT, 1, [1, 0, 0, 0, 0, 0, 0]),
        with("7-clause-last", INPUT, 7, [4, 4, 4, 4, 4, 4, 2]),
    ]
}

/// Reasons 4, 5 and 8 of resolve steps.
fn resolves() -> Vec<Example> {
    use kind::RESOLVE;
    vec![
        with("stands-resolve", RESOLVE, 0, [2, 1, 1, 1, 0, 0, 0]),
        with("stands-resolve-negative-left", RESOLVE, 0, [1, 1, 2, 1, 0, 0, 0]),
        with("4-resolve-byte-1", RESOLVE, 1, [2, 1, 1, 1, 0, 0, 0]),
        with("4-resolve-field-e", RESOLVE, 0, [2, 1, 1, 1, 1, 0, 0]),
        with("4-before-5-resolve", RESOLVE, 0, [99, 0, 99, 0, 0, 0, 9]),
        with("5-resolve-left-clause", RESOLVE, 0, [6, 1, 1, 1, 0, 0, 0]),
        with("5-resolve-right-clause", RESOLVE, 0, [2, 1, 6, 1, 0, 0, 0]),
        with("5-resolve-literal-0", RESOLVE, 0, [2, 0, 1, 1, 0, 0, 0]),
        with("5-resolve-right-literal-0", RESOLVE, 0, [2, 1, 1, 0, 0, 0, 0]),
        with("5-resolve-left-literal-past", RESOLVE, 0, [2, 4, 1, 1, 0, 0, 0]),
        with("5-resolve-right-literal-past", RESOLVE, 0, [2, 1, 1, 2, 0, 0, 0]),
        with("5-resolve-empty-clause", RESOLVE, 0, [5, 1, 1, 1, 0, 0, 0]),
        with("5-before-8-resolve", RESOLVE, 0, [2, 1, 2, 4, 0, 0, 0]),
        with("8-resolve-positive", RESOLVE, 0, [2, 1, 3, 1, 0, 0, 0]),
        with("8-resolve-negative", RESOLVE, 0, [1, 1, 4, 1, 0, 0, 0]),
        with("8-resolve-literal-with-itself", RESOLVE, 0, [2, 1, 2, 1, 0, 0, 0]),
        with("8-before-10-resolve", RESOLVE, 0, [1, 1, 0, 2, 0, 0, 0]),
    ]
}

/// Reasons 4, 5 and 8 of factor steps.
fn factors() -> Vec<Example> {
    use kind::FACTOR;
    vec![
        with("stands-factor", FACTOR, 0, [2, 1, 2, 0, 0, 0, 0]),
        with("stands-factor-deletes-first", FACTOR, 0, [2, 2, 1, 0, 0, 0, 0]),
        with("4-factor-byte-1", FACTOR, 2, [2, 1, 2, 0, 0, 0, 0]),
        with("4-factor-field-d", FACTOR, 0, [2, 1, 2, 1, 0, 0, 0]),
        with("5-factor-clause", FACTOR, 0, [6, 1, 2, 0, 0, 0, 0]),
        with("5-factor-kept-0", FACTOR, 0, [2, 0, 2, 0, 0, 0, 0]),
        with("5-factor-deleted-past", FACTOR, 0, [2, 1, 4, 0, 0, 0, 0]),
        with("5-before-8-factor-same-missing", FACTOR, 0, [2, 4, 4, 0, 0, 0, 0]),
        with("8-factor-same-literal", FACTOR, 0, [2, 1, 1, 0, 0, 0, 0]),
        with("8-factor-signs", FACTOR, 0, [2, 1, 3, 0, 0, 0, 0]),
    ]
}

/// Two unit clauses p(·,·,·) of opposite sign, resolved both ways round.
/// Symbols: 0 p, 1 g of two arguments, 2 f of one, 3 and 4 constants.
fn pair(name: &str, left: [Term; 3], right: [Term; 3]) -> Example {
    let mut file = Sketch::new();
    let [p, ..] = [3, 2, 1, 0, 0].map(|arity| file.symbol(arity));
    let left = file.clause(&[pos(app(p, left))]);
    let right = file.clause(&[neg(app(p, right))]);
    file.resolve(left, 1, right, 1);
    file.resolve(right, 1, left, 1);
    Example::new(name, file.finish())
}

/// Reasons 10 and 11, as outlines or unification meet them.
fn unifications() -> Vec<Example> {
    let [x, y, z] = [0, 1, 2].map(|number| move || var(number));
    let [a, b] = [3, 4].map(|symbol| move || app(symbol, []));
    let f = |inner: Term| app(2, [inner]);
    let g = |first: Term, second: Term| app(1, [first, second]);
    vec![
        pair("10-last-argument", [x(), y(), a()], [a(), a(), b()]),
        pair("10-through-a-binding", [x(), x(), y()], [a(), b(), z()]),
        pair("10-function-against-constant", [f(x()), x(), x()], [a(), x(), x()]),
        pair("10-before-11", [a(), x(), x()], [b(), y(), f(y())]),
        pair("10-by-outlines-before-11", [x(), x(), a()], [y(), f(y()), b()]),
        pair("11-right-variable", [f(x()), x(), a()], [y(), y(), a()]),
        pair("11-through-two-bindings", [x(), y(), g(x(), y())], [f(y()), f(x()), x()]),
        pair("11-at-the-second-argument", [x(), x(), a()], [g(a(), y()), y(), a()]),
        pair("stands-same-numbers-apart", [x(), y(), z()], [f(x()), f(y()), z()]),
    ]
}

/// Each byte that a kind does not use, by itself not zero: 4, whatever else is right or wrong with the record.
fn unused_bytes() -> Vec<Example> {
    let records = [
        ("symbol", Record::new(kind::SYMBOL, 1, &[]), 1),
        ("variable", Record::new(kind::VARIABLE, 0, &[2]), 2),
        ("application-of-none", Record::new(kind::APPLICATION, 0, &[3]), 2),
        ("application-of-two", Record::new(kind::APPLICATION, 2, &[0, 5, 5]), 4),
        ("clause-of-none", Record::new(kind::INPUT, 0, &[]), 1),
        ("clause-of-two", Record::new(kind::INPUT, 2, &[4, 17]), 3),
        ("resolve", Record::new(kind::RESOLVE, 0, &[2, 1, 1, 1]), 5),
        ("factor", Record::new(kind::FACTOR, 0, &[2, 1, 2]), 4),
    ];
    records.into_iter().flat_map(|(name, record, used)| unused_bytes_of(name, record, used)).collect()
}

/// Byte 1 where the kind has no count, and every byte from pair `used` on.
pub(super) fn unused_bytes_of(name: &str, record: Record, used: usize) -> Vec<Example> {
    let counted = !matches!(record.kind, kind::VARIABLE | kind::RESOLVE | kind::FACTOR | kind::WINDOW);
    let places = (1..2).filter(|_| !counted).chain(2 * used..16);
    let example = |place: usize| {
        let mut bytes = record.to_bytes();
        bytes[place] = 1 << (place % 8);
        let Record { kind, count, fields } = Record::from_bytes(&bytes);
        with(&format!("4-{name}-byte-{place}"), kind, count, fields)
    };
    places.map(example).collect()
}
