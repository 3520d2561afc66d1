//! Steps on several right literals that are refused with the reason in their name, and some that stand.

use yestrwyn_types::record::kind::RESOLVE_SEVERAL as SEVERAL;

use super::super::outlines::Terms;
use super::super::refusals::{unused_bytes_of, with};
use super::{of_rows, record, Example};
use crate::sketch::{app, var, SignedTerm, Sketch, Term};

/// All of them.
pub fn refusals() -> Vec<Example> {
    let mut all = ranges();
    all.extend(missing());
    all.extend(orders());
    all.extend(signs());
    all.extend(sizes());
    all.extend(unifications());
    all.extend(unused_bytes_of("several-of-one", record(&[1, 1, 2, 1]), 5));
    all.extend(unused_bytes_of("several-of-two", record(&[1, 1, 2, 1, 2]), 6));
    all.extend(unused_bytes_of("several-of-three", record(&[0, 1, 2, 1, 2, 3]), 7));
    all
}

/// Reason 4, and the same with right bytes. In the standing file clause 1 is -p(a,b), clause 2 is +p(a,b) +p(a,b)
/// -p(v0,v1).
fn ranges() -> Vec<Example> {
    vec![
        with("stands-several-one", SEVERAL, 1, [1, 1, 2, 2, 0, 0, 0]),
        with("stands-several-two", SEVERAL, 2, [1, 1, 2, 1, 2, 0, 0]),
        with("stands-several-positive-left", SEVERAL, 1, [2, 2, 2, 3, 0, 0, 0]),
        with("4-several-of-none", SEVERAL, 0, [1, 1, 2, 0, 0, 0, 0]),
        with("4-several-of-none-named-as-in-kind-5", SEVERAL, 0, [1, 1, 2, 1, 0, 0, 0]),
        with("4-several-of-five", SEVERAL, 5, [1, 1, 2, 1, 2, 0, 0]),
        with("4-several-of-255", SEVERAL, 255, [1, 1, 2, 1, 2, 3, 4]),
        with("4-before-5-several", SEVERAL, 2, [99, 0, 99, 0, 0, 1, 0]),
        with("4-before-14-several", SEVERAL, 2, [1, 1, 2, 2, 1, 0, 9]),
        with("4-before-14-several-of-five", SEVERAL, 5, [1, 1, 2, 2, 1, 0, 0]),
    ]
}

/// Reason 5.
fn missing() -> Vec<Example> {
    vec![
        with("5-several-left-clause", SEVERAL, 2, [6, 1, 2, 1, 2, 0, 0]),
        with("5-several-left-literal-0", SEVERAL, 2, [1, 0, 2, 1, 2, 0, 0]),
        with("5-several-left-literal-past", SEVERAL, 2, [1, 2, 2, 1, 2, 0, 0]),
        with("5-several-right-clause", SEVERAL, 2, [1, 1, 6, 1, 2, 0, 0]),
        with("5-several-empty-clause", SEVERAL, 1, [1, 1, 5, 1, 0, 0, 0]),
        with("5-several-literal-0", SEVERAL, 2, [1, 1, 2, 0, 1, 0, 0]),
        with("5-several-last-literal-past", SEVERAL, 3, [1, 1, 2, 1, 2, 4, 0]),
        with("5-several-fourth-of-four", SEVERAL, 4, [1, 1, 2, 1, 2, 3, 4]),
        with("5-several-literal-65535", SEVERAL, 4, [1, 1, 2, 1, 2, 3, 65_535]),
        with("5-before-14-several", SEVERAL, 3, [1, 1, 2, 1, 9, 2, 0]),
        with("5-before-14-several-first-two-fall", SEVERAL, 3, [1, 1, 2, 2, 1, 4, 0]),
        with("5-before-14-several-equal", SEVERAL, 2, [1, 1, 2, 4, 4, 0, 0]),
        with("5-before-14-several-0-among-good-ones", SEVERAL, 3, [1, 1, 2, 1, 0, 2, 0]),
        with("5-before-8-several", SEVERAL, 2, [1, 1, 2, 3, 4, 0, 0]),
    ]
}

/// Reason 14.
fn orders() -> Vec<Example> {
    vec![
        with("14-several-falling", SEVERAL, 2, [1, 1, 2, 2, 1, 0, 0]),
        with("14-several-equal", SEVERAL, 2, [1, 1, 2, 1, 1, 0, 0]),
        with("14-several-last-two-equal", SEVERAL, 3, [1, 1, 2, 1, 2, 2, 0]),
        with("14-several-last-falls", SEVERAL, 3, [1, 1, 2, 1, 2, 1, 0]),
        with("14-several-first-falls", SEVERAL, 4, [1, 1, 2, 2, 1, 2, 3]),
        with("14-before-8-several-falling", SEVERAL, 2, [1, 1, 2, 3, 1, 0, 0]),
        with("14-before-8-several-equal", SEVERAL, 2, [1, 1, 2, 3, 3, 0, 0]),
        with("14-before-8-several-of-four", SEVERAL, 4, [1, 1, 2, 3, 3, 2, 1]),
        with("14-before-10-several", SEVERAL, 2, [4, 1, 2, 2, 1, 0, 0]),
    ]
}

/// p of one argument: a left clause of one literal and a right one, a step on some right literals, and a good record
/// after it. Symbols: 0 p, 1 f of one argument, 2 and 3 constants a and b.
fn step(name: &str, left: SignedTerm, right: &[SignedTerm], numbers: &[u16]) -> Example {
    let mut file = Sketch::new();
    for arity in [1, 1, 0, 0] {
        file.symbol(arity);
    }
    let left = file.clause(&[left]);
    let right = file.clause(right);
    file.resolve_several(left, 1, right, numbers);
    file.symbol(1);
    Example::new(name, file.finish())
}

/// Reason 8: some right literal has the sign of the left one.
fn signs() -> Vec<Example> {
    let p = |sign: bool, inner: Term| (sign, app(0, [inner]));
    let [a, b] = [2, 3].map(|symbol| move || app(symbol, []));
    let mut all = Vec::new();
    for (name, left) in [("positive", true), ("negative", false)] {
        let not = !left;
        let example = |what: &str, signs: [bool; 4], numbers: &[u16]| {
            let rights = signs.map(|sign| p(sign, a()));
            step(&format!("{what}-{name}-left"), p(left, var(0)), &rights, numbers)
        };
        all.push(example("8-several-first-of-two", [left, not, not, not], &[1, 2]));
        all.push(example("8-several-second-of-three", [not, left, not, not], &[1, 2, 3]));
        all.push(example("8-several-last-of-four", [not, not, not, left], &[1, 2, 3, 4]));
        all.push(example("stands-several-past-an-equal-sign", [not, left, not, not], &[1, 3, 4]));
    }
    let clash = [p(false, b()), p(true, a()), p(false, a())];
    all.push(step("8-before-10-several", p(true, a()), &clash, &[1, 2, 3]));
    all
}

/// Reason 9 comes after 8 and before 10: the left clause is of index 4,096.
fn sizes() -> Vec<Example> {
    let example = |name: &str, numbers: &[u16]| {
        let mut file = Sketch::new();
        let [p, a, b] = [1, 0, 0].map(|arity| file.symbol(arity));
        let [pa, pb] = [a, b].map(|symbol| app(p, [app(symbol, [])]));
        let mut left = file.clause(&[(false, pa.clone()), (true, pa.clone())]);
        let right = file.clause(&[(false, pa.clone()), (false, pb), (true, pa)]);
        for _ in 0..12 {
            left = file.resolve(left, 2, left, 1);
        }
        file.resolve_several(left, 2, right, numbers);
        file.symbol(1);
        Example::new(name, file.finish())
    };
    vec![
        example("9-before-10-several", &[1, 2]),
        example("8-before-9-several", &[1, 3]),
        example("14-before-9-several", &[2, 1]),
    ]
}

/// Reasons 10 and 11, as the outlines of all right literals or their unification in turn meet them.
fn unifications() -> Vec<Example> {
    let p = |sign: bool, inner: Term| (sign, app(0, [inner]));
    let f = |inner: Term| app(1, [inner]);
    let [x, y, z] = [0, 1, 2].map(|number| move || var(number));
    let [a, b] = [2, 3].map(|symbol| move || app(symbol, []));
    let example = |name: &str, left: Term, rights: &[Term]| {
        let numbers: Vec<u16> = (1..=rights.len() as u16).collect();
        let rights: Vec<SignedTerm> = rights.iter().map(|term| p(false, term.clone())).collect();
        step(name, p(true, left), &rights, &numbers)
    };
    vec![
        example("10-several-second-outline", a(), &[a(), b()]),
        example("10-several-by-a-binding-of-the-first", x(), &[a(), b()]),
        example("10-several-by-a-binding-of-the-second", x(), &[y(), a(), b()]),
        example("11-several-in-the-second", x(), &[y(), f(y())]),
        example("11-several-in-the-third", x(), &[y(), z(), f(y())]),
        example("11-several-between-right-literals", x(), &[f(x()), y(), f(f(x()))]),
        example("stands-several-bound-by-the-first", x(), &[f(x()), f(y())]),
        third_outline("10-several-third-outline-before-11-in-the-first", true),
        third_outline("11-several-in-the-first", false),
        second_outline("10-several-second-outline-before-12-in-the-first", None, 16_383),
        second_outline("10-several-second-outline-before-13-in-the-first", Some(0), 1),
    ]
}

/// +p(x,x,a) against -p(y,f(y),a), at which unification gives 11, -p(y,y,a), and -p(y,y,b), or once more with a.
fn third_outline(name: &str, clash: bool) -> Example {
    let mut terms = Terms::new(None);
    let [left, right] = terms.knot();
    let (a, b, y) = (terms.a(), terms.b(), right[0]);
    let last = if clash { b } else { a };
    let rights = [&[&right[..], &[a]].concat()[..], &[y, y, a], &[y, y, last]];
    of_rows(name, terms, &[&left[..], &[a]].concat(), &rights)
}

/// +p(x,a) against -p(t,a), where t has a size and there is room for some bindings only, and -p(y,b).
fn second_outline(name: &str, room: Option<usize>, size: usize) -> Example {
    let mut terms = Terms::new(room);
    let (a, b, t) = (terms.a(), terms.b(), terms.ground(size));
    let [x, y] = [0, 1].map(|number| terms.var(number));
    of_rows(name, terms, &[x, a], &[&[t, a], &[y, b]])
}
