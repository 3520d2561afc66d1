//! Outlines at the edge of the pairs that are compared.

use super::refusals::two_values;
use super::terms::{and, Terms, X};
use super::{stepped, Sides, Step, ALL, BOTH, RESOLVE};
use crate::examples::Example;

/// Atoms of which the last pair, or the pair that clashes, has a given number.
struct Atoms {
    name: &'static str,
    room: Option<usize>,
    steps: &'static [Step],
    sides: fn(&mut Terms, usize) -> Sides,
}

/// Found at pair 4,096, a clash gives 10; hidden at pair 4,097, what the name says. Then two clashes that only
/// a binding brings about, at the limit of work.
pub fn edges() -> Vec<Example> {
    let mut all = Vec::new();
    for atoms in &ATOMS {
        for pairs in [4096, 4097] {
            let name = format!("outline-{pairs}-pairs-{}", atoms.name);
            for &step in atoms.steps {
                let mut terms = Terms::new(atoms.room);
                let sides = (atoms.sides)(&mut terms, pairs);
                all.push(stepped(&name, step, terms, sides));
            }
        }
    }
    all.push(clash_by_a_binding("work-16384-clash-by-a-binding", 16_380));
    all.push(clash_by_a_binding("work-16385-clash-by-a-binding", 16_381));
    all
}

const ATOMS: [Atoms; 6] = [
    Atoms { name: "occurs", room: None, steps: &ALL, sides: clash_after_knot },
    Atoms { name: "occurs-deep", room: None, steps: &BOTH, sides: deep_clash_after_knot },
    Atoms {
        name: "work",
        room: None,
        steps: &BOTH,
        sides: |terms, pairs| clash_after_value(terms, pairs, 16_383),
    },
    Atoms {
        name: "bindings",
        room: Some(0),
        steps: &BOTH,
        sides: |terms, pairs| clash_after_value(terms, pairs, 1),
    },
    Atoms { name: "clash", room: None, steps: &BOTH, sides: clash_alone },
    Atoms { name: "stands", room: None, steps: &BOTH, sides: no_clash },
];

/// The atoms, two pairs of the knot, and one of equal rows that are not opened; then terms, and a against b.
fn clash_after_knot(terms: &mut Terms, pairs: usize) -> Sides {
    let (same, filling, last) = (terms.ground(5000), terms.filling(pairs - 5), [terms.a(), terms.b()]);
    and(and(and(terms.knot(), [same, same]), filling), last)
}

/// The atoms, two pairs of the knot, and g(g(t,a),a) against g(g(t,b),a).
fn deep_clash_after_knot(terms: &mut Terms, pairs: usize) -> Sides {
    let ([left, right], [a, b]) = (terms.filling(pairs - 6), [terms.a(), terms.b()]);
    let inner = [terms.g(left, a), terms.g(right, b)];
    let outer = inner.map(|inner| terms.g(inner, a));
    and(terms.knot(), outer)
}

/// The atoms, x against a term of a size, then terms, and a against b.
fn clash_after_value(terms: &mut Terms, pairs: usize, size: usize) -> Sides {
    let open = [vec![terms.var(X)], vec![terms.ground(size)]];
    let (filling, last) = (terms.filling(pairs - 3), [terms.a(), terms.b()]);
    and(and(open, filling), last)
}

/// The atoms, terms, and a against b, which unification would meet as well.
fn clash_alone(terms: &mut Terms, pairs: usize) -> Sides {
    let (filling, last) = (terms.filling(pairs - 2), [terms.a(), terms.b()]);
    and(filling.map(|term| vec![term]), last)
}

/// The atoms and terms.
fn no_clash(terms: &mut Terms, pairs: usize) -> Sides {
    terms.filling(pairs - 1).map(|term| vec![term])
}

/// The same term of a size, which takes as much work, then u against a and again against b: work 4 more.
fn clash_by_a_binding(name: &str, size: usize) -> Example {
    let mut terms = Terms::new(None);
    let same = terms.ground(size);
    let sides = two_values(&mut terms, 0).map(|arguments| [vec![same], arguments].concat());
    stepped(name, RESOLVE, terms, sides)
}
