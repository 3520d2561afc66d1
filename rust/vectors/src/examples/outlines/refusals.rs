//! Outlines that clash, with what unification alone would meet first; and outlines that do not.

use super::terms::{and, Terms, U, X, Y};
use super::{stepped, Sides, Step, ALL, BOTH};
use crate::examples::Example;

/// Atoms for any step: with room for all bindings or for some only.
struct Atoms {
    name: &'static str,
    room: Option<usize>,
    sides: fn(&mut Terms) -> Sides,
}

/// Files refused with the number in their name, resolved and factored, with the sides exchanged too. Where the
/// outlines clash, the name also says what unification alone gives.
pub fn refusals() -> Vec<Example> {
    let mut all = Vec::new();
    for atoms in CLASHES.iter().chain(&NO_CLASHES) {
        for step in ALL {
            let mut terms = Terms::new(atoms.room);
            let sides = (atoms.sides)(&mut terms);
            all.push(stepped(atoms.name, step, terms, sides));
        }
    }
    for atoms in &BOUND_BY_A_PARENT {
        all.extend(BOTH.map(|step| bound_by_a_parent(atoms, step)));
    }
    all
}

/// Atoms whose outlines clash.
const CLASHES: [Atoms; 8] = [
    Atoms { name: "10-was-11", room: None, sides: knot_then_clash },
    Atoms { name: "10-was-11-other-arity", room: None, sides: other_arity },
    Atoms { name: "10-was-11-past-equal-rows", room: None, sides: past_equal_rows },
    Atoms { name: "10-was-11-before-a-large-argument", room: None, sides: |terms| before_large(terms, 0) },
    Atoms {
        name: "10-was-11-deep-before-a-large-argument",
        room: None,
        sides: |terms| before_large(terms, 20),
    },
    Atoms { name: "10-was-12", room: None, sides: |terms| open_then_clash(terms, 16_383) },
    Atoms { name: "10-was-13", room: Some(0), sides: |terms| open_then_clash(terms, 1) },
    Atoms { name: "10-was-13-second-binding", room: Some(1), sides: two_open_then_clash },
];

/// Atoms whose outlines do not clash, or not within the pairs that are compared.
const NO_CLASHES: [Atoms; 7] = [
    Atoms { name: "11-after-a-large-argument", room: None, sides: after_large },
    Atoms { name: "11-clash-by-a-binding", room: None, sides: |terms| knot_and_two_values(terms, 0) },
    Atoms { name: "11-clash-below-a-variable", room: None, sides: |terms| knot_and_two_values(terms, 3) },
    Atoms { name: "10-by-a-binding", room: None, sides: |terms| two_values(terms, 0) },
    Atoms { name: "10-below-a-variable", room: None, sides: |terms| two_values(terms, 3) },
    Atoms { name: "10-by-the-last-binding", room: Some(1), sides: |terms| two_values(terms, 0) },
    Atoms { name: "13-clash-by-a-binding", room: Some(0), sides: |terms| two_values(terms, 0) },
];

/// Arguments before a variable that a parent's step has bound. With room for one, that step takes the last.
const BOUND_BY_A_PARENT: [Atoms; 4] = [
    Atoms { name: "10-by-a-parents-binding", room: None, sides: |_| [vec![], vec![]] },
    Atoms { name: "11-clash-by-a-parents-binding", room: None, sides: Terms::knot },
    Atoms { name: "12-clash-by-a-parents-binding", room: None, sides: |terms| open(terms, 16_383) },
    Atoms { name: "13-clash-by-a-parents-binding", room: Some(1), sides: |terms| open(terms, 1) },
];

/// Arguments with a against b after them.
fn then_clash(terms: &mut Terms, sides: Sides) -> Sides {
    let last = [terms.a(), terms.b()];
    and(sides, last)
}

/// The knot, and a against b.
fn knot_then_clash(terms: &mut Terms) -> Sides {
    let knot = terms.knot();
    then_clash(terms, knot)
}

/// The knot, and f(a) against g(a,a).
fn other_arity(terms: &mut Terms) -> Sides {
    let a = terms.a();
    let last = [terms.f(a), terms.g(a, a)];
    and(terms.knot(), last)
}

/// The knot, a row of size 5,000 on both sides, which is one pair, and a against b.
fn past_equal_rows(terms: &mut Terms) -> Sides {
    let same = terms.ground(5000);
    let sides = and(terms.knot(), [same, same]);
    then_clash(terms, sides)
}

/// The knot, f(..(a)) against f(..(b)), and then terms that alone take more pairs than are compared. Last
/// arguments first, or one level after another, nobody comes to the clash.
fn before_large(terms: &mut Terms, times: usize) -> Sides {
    let clash = [terms.a(), terms.b()].map(|inner| terms.nested(times, inner));
    let large = terms.filling(5000);
    and(and(terms.knot(), clash), large)
}

/// The knot, then terms that alone take more pairs than are compared, then a against b.
fn after_large(terms: &mut Terms) -> Sides {
    let large = terms.filling(5000);
    let sides = and(terms.knot(), large);
    then_clash(terms, sides)
}

/// x against a term of a size.
fn open(terms: &mut Terms, size: usize) -> Sides {
    [vec![terms.var(X)], vec![terms.ground(size)]]
}

/// x against a term of a size, then a against b.
fn open_then_clash(terms: &mut Terms, size: usize) -> Sides {
    let sides = open(terms, size);
    then_clash(terms, sides)
}

/// x and y against a and b, then a against b.
fn two_open_then_clash(terms: &mut Terms) -> Sides {
    let sides = [vec![terms.var(X), terms.var(Y)], vec![terms.a(), terms.b()]];
    then_clash(terms, sides)
}

/// u against f(..(a)), and again u against f(..(b)).
pub(super) fn two_values(terms: &mut Terms, times: usize) -> Sides {
    let u = terms.var(U);
    let values = [terms.a(), terms.b()].map(|inner| terms.nested(times, inner));
    [vec![u, u], values.to_vec()]
}

/// The same after the knot.
fn knot_and_two_values(terms: &mut Terms, times: usize) -> Sides {
    let [left, right] = terms.knot();
    let [lefts, rights] = two_values(terms, times);
    [[left, lefts].concat(), [right, rights].concat()]
}

/// Arguments, then u against b, where +q(u) has been resolved with -q(a): the outline has the variable.
fn bound_by_a_parent(atoms: &Atoms, step: Step) -> Example {
    let mut terms = Terms::new(atoms.room);
    let sides = (atoms.sides)(&mut terms);
    let [u, a, b] = [terms.var(U), terms.a(), terms.b()];
    let file = &mut terms.file;
    let [p, q] = [1 + sides[0].len() as u8, 1].map(|arity| file.symbol(arity));
    let [left, right] = and(sides, [u, b]).map(|arguments| file.application(p, &arguments));
    let [qu, qa] = [u, a].map(|row| file.application(q, &[row]));
    let fact = file.clause_of_rows(&[(false, qa)]);
    if step.factor {
        let parent = file.clause_of_rows(&[(true, qu), (true, left), (true, right)]);
        let derived = file.resolve(parent, 1, fact, 1);
        file.factor(derived, 1, 2);
    } else {
        let parent = file.clause_of_rows(&[(true, qu), (true, left)]);
        let other = file.clause_of_rows(&[(false, right)]);
        let derived = file.resolve(parent, 1, fact, 1);
        file.resolve(derived, 1, other, 1);
    }
    file.symbol(1);
    Example::new(&format!("{}-{}", atoms.name, step.name), terms.file.finish())
}
