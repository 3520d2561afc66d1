//! Each limit at its edge and one past it, met in the second or a later right literal.

use super::super::edges::{hold_bindings, index_4095, literals_127};
use super::super::outlines::Terms;
use super::{of_rows, Example};
use crate::sketch::{app, neg, pos, var, Sketch};

/// All of them.
pub fn edges() -> Vec<Example> {
    let mut all = works();
    all.extend(bindings());
    all.extend(sizes());
    all.extend(outlines());
    all
}

/// A right literal: the term itself, which takes work 1 + size, or a variable of its own, which takes 2 + size.
#[derive(Clone, Copy)]
enum Right {
    Term,
    Open,
}

/// The work of all right literals together: 16,384 stands, 16,385 does not.
fn works() -> Vec<Example> {
    use Right::{Open, Term};
    vec![
        work("16384-in-the-second", 8191, &[Term, Term]),
        work("16385-in-the-second", 8191, &[Term, Open]),
        work("16385-as-the-third-begins", 8191, &[Term, Term, Open]),
        work("16384-in-the-third", 5460, &[Term, Open, Term]),
        work("16385-in-the-third", 5460, &[Term, Open, Open]),
        work("16384-in-the-fourth", 4095, &[Term, Term, Term, Term]),
        work("16385-in-the-fourth", 4095, &[Open, Term, Term, Term]),
    ]
}

/// +p(t), where t has a size, against right literals of either form.
fn work(name: &str, size: usize, rights: &[Right]) -> Example {
    let mut terms = Terms::new(None);
    let t = terms.ground(size);
    let mut inner = Vec::new();
    for (right, number) in rights.iter().zip(0..) {
        inner.push(match right {
            Right::Term => [t],
            Right::Open => [terms.var(number)],
        });
    }
    let rights: Vec<&[u16]> = inner.iter().map(|row| &row[..]).collect();
    of_rows(&format!("several-work-{name}"), terms, &[t], &rights)
}

/// Bindings: 8,192 may be held. Each right literal needs one.
fn bindings() -> Vec<Example> {
    let mut all = Vec::new();
    for (place, count) in [("second", 2), ("third", 3), ("fourth", 4)] {
        let name = |bindings: usize| format!("several-bindings-{bindings}-in-the-{place}");
        all.push(Example::new(&name(8192), bindings_left(count, count, false)));
        all.push(Example::new(&name(8193), bindings_left(count - 1, count, false)));
    }
    all.push(Example::new("several-bindings-8192-then-none-needed", bindings_left(1, 2, true)));
    all
}

/// With room for some bindings, +q(x) against so many literals -q(y), each of a variable of its own or all of one: x
/// is bound to the first, and each to the next.
fn bindings_left(room: usize, count: usize, one_variable: bool) -> Vec<u8> {
    let mut file = Sketch::new();
    hold_bindings(&mut file, room);
    let q = file.symbol(1);
    let variable = |place: usize| if one_variable { 1 } else { 1 + place as u16 };
    let rights: Vec<_> = (0..count).map(|place| neg(app(q, [var(variable(place))]))).collect();
    let left = file.clause(&[pos(app(q, [var(0)]))]);
    let right = file.clause(&rights);
    let numbers: Vec<u16> = (1..=count as u16).collect();
    file.resolve_several(left, 1, right, &numbers);
    file.finish()
}

/// Literals and maximum index of a result.
fn sizes() -> Vec<Example> {
    let mut all = Vec::new();
    for count in 1..=4 {
        for (literals, last) in [(128, 2 + count), (129, 3 + count)] {
            let name = format!("several-result-{literals}-literals-of-{count}");
            all.push(Example::new(&name, many_literals(count, last)));
        }
    }
    all.push(Example::new("several-result-index-4096", index(0)));
    all.push(Example::new("several-result-index-4097", index(1)));
    all
}

/// A clause of 127 literals, of which the first +b are resolved with one -b of a clause that has so many.
fn many_literals(count: u16, left_literals: u16) -> Vec<u8> {
    let mut file = Sketch::new();
    let [a, b] = [0, 0].map(|arity| app(file.symbol(arity), []));
    let mut seven = vec![neg(a.clone()), pos(a)];
    seven.extend(vec![pos(b.clone()); 5]);
    let one = file.clause(&seven);
    let left = file.clause(&vec![neg(b); usize::from(left_literals)]);
    let right = literals_127(&mut file, one);
    let numbers: Vec<u16> = (2..2 + count).collect();
    file.resolve_several(left, left_literals, right, &numbers);
    file.finish()
}

/// -a +a at index 4,095, or with one use more, against both -a of -a -a +b.
fn index(past: u16) -> Vec<u8> {
    let mut file = Sketch::new();
    let [a, b] = [0, 0].map(|arity| app(file.symbol(arity), []));
    let one = file.clause(&[neg(a.clone()), pos(a.clone())]);
    let right = file.clause(&[neg(a.clone()), neg(a), pos(b)]);
    let mut left = index_4095(&mut file, one);
    if past == 1 {
        left = file.resolve(left, 2, one, 1);
    }
    file.resolve_several(left, 2, right, &[1, 2]);
    file.finish()
}

/// Outlines that clash at pair 4,096 of the second or the third comparison, where each one before it takes 4,096 pairs
/// too; and at pair 4,097, where no comparison finds it. Unification gives 11 in the first pair.
fn outlines() -> Vec<Example> {
    let mut all = Vec::new();
    for (place, count) in [("second", 2), ("third", 3)] {
        for pairs in [4096, 4097] {
            let name = format!("several-outline-{pairs}-pairs-of-the-{place}");
            all.push(clash_in_the_last(&name, pairs, count));
        }
    }
    all
}

/// +p(x,x,s,a) against -p(y,f(y),t,a) and, in the last of so many, b for a: s and t take pairs and do not clash.
fn clash_in_the_last(name: &str, pairs: usize, count: usize) -> Example {
    let mut terms = Terms::new(None);
    let [left, right] = terms.knot();
    let [s, t] = terms.filling(pairs - 4);
    let [a, b] = [terms.a(), terms.b()];
    let [left, agreeing, clashing] = [(left, s, a), (right.clone(), t, a), (right, t, b)]
        .map(|(start, large, last)| [&start[..], &[large, last]].concat());
    let mut rights = vec![&agreeing[..]; count];
    rights[count - 1] = &clashing;
    of_rows(name, terms, &left, &rights)
}
