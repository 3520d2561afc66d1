//! R. S. Boyer and J S. Moore, "The Sharing of Structure in Theorem-proving Programs", 1972.

use super::Example;
use crate::sketch::{app, neg, pos, var, Sketch, Term};

/// The resolution of section 6, and the derivation of figure 1 in section 7.
pub fn examples() -> Vec<Example> {
    vec![
        Example::new("boyer-moore-section-6", section_6()),
        Example::new("boyer-moore-section-7-figure-1", figure_1()),
    ]
}

const X: u16 = 0;
const Y: u16 = 1;
const Z: u16 = 2;
const U: u16 = 3;
const W: u16 = 4;

/// Section 6: the clauses C1 and C2 and their resolvent on the second literals.
///
/// The paper gives C1 and C2 as lists of literals with indices in an environment. Here each is
/// derived, with the same indices, by three resolutions on linking literals that are all resolved
/// away; the linking clause holds the values that the environment gives.
pub fn section_6() -> Vec<u8> {
    let mut file = Sketch::new();
    let symbols = [2, 2, 2, 2, 1].map(|arity| file.symbol(arity));
    let c1 = section_6_left(&mut file, symbols);
    let c2 = section_6_right(&mut file, symbols);
    file.resolve(c1, 2, c2, 2);
    file.finish()
}

/// C1, with literals at indices 2, 2 and 4: x2 = x3, y2 = f(x4,y4), y4 = x3, z4 = f(x2,y2).
fn section_6_left(file: &mut Sketch, [p, q, _, f, _]: [u16; 5]) -> u16 {
    let [a, b, c] = [2, 1, 3].map(|arity| file.symbol(arity));
    let [x, y, z, u, w] = [X, Y, Z, U, W].map(|number| move || var(number));
    let pair = |s: Term, t: Term| app(f, [s, t]);
    let first = file.clause(&[
        neg(app(a, [u(), pair(w(), u())])),
        neg(app(b, [u()])),
        neg(app(c, [w(), u(), pair(u(), pair(w(), u()))])),
    ]);
    let second = file.clause(&[pos(app(q, [y(), y()])), pos(app(p, [x(), y()])), pos(app(a, [x(), y()]))]);
    let third = file.clause(&[pos(app(b, [x()]))]);
    let fourth = file.clause(&[neg(app(p, [x(), pair(y(), z())])), pos(app(c, [x(), y(), z()]))]);
    let with_second = file.resolve(first, 1, second, 3);
    let with_third = file.resolve(with_second, 1, third, 1);
    file.resolve(with_third, 1, fourth, 2)
}

/// C2, with literals at indices 1, 3 and 4: z3 = f(x4,y4), x4 = x3, y4 = g(y1).
fn section_6_right(file: &mut Sketch, [p, q, r, f, g]: [u16; 5]) -> u16 {
    let [d, e, h] = [1, 2, 2].map(|arity| file.symbol(arity));
    let [x, y, z, u, w] = [X, Y, Z, U, W].map(|number| move || var(number));
    let pair = |s: Term, t: Term| app(f, [s, t]);
    let of_g = |t: Term| app(g, [t]);
    let first = file.clause(&[neg(app(q, [x(), y()])), neg(app(d, [y()]))]);
    let second = file.clause(&[
        pos(app(d, [u()])),
        neg(app(e, [w(), pair(w(), of_g(u()))])),
        neg(app(h, [w(), of_g(u())])),
    ]);
    let third = file.clause(&[neg(app(p, [of_g(x()), z()])), pos(app(e, [x(), z()]))]);
    let fourth = file.clause(&[pos(app(r, [x(), pair(x(), y())])), pos(app(h, [x(), y()]))]);
    let with_second = file.resolve(first, 2, second, 1);
    let with_third = file.resolve(with_second, 2, third, 2);
    file.resolve(with_third, 2, fourth, 2)
}

/// Section 7, figure 1: C4 = RESOLVE(C1,1,C2,2), C5 = RESOLVE(C1,1,C4,2), C6 = RESOLVE(C4,1,C3,1),
/// C7 = RESOLVE(C5,1,C6,3). Clauses C1 to C7 of the figure are clauses 0 to 6 here.
///
/// The figure itself is lost in our copy. Of the input clauses the text gives only the third
/// literal of C2, (Q x y); the others are chosen so that every value the text prints comes out.
pub fn figure_1() -> Vec<u8> {
    let mut file = Sketch::new();
    let [p, q, r, f, g] = [2, 2, 2, 1, 1].map(|arity| file.symbol(arity));
    let c1 = file.clause(&[
        pos(app(p, [var(X), app(f, [var(Y)])])),
        pos(app(r, [app(g, [var(Y)]), app(f, [var(X)])])),
    ]);
    let c2 = file.clause(&[
        neg(app(p, [var(X), var(Y)])),
        neg(app(p, [var(Y), var(X)])),
        pos(app(q, [var(X), var(Y)])),
    ]);
    let c3 = file.clause(&[neg(app(r, [app(g, [var(X)]), var(X)])), neg(app(r, [var(Z), var(X)]))]);
    let c4 = file.resolve(c1, 1, c2, 2);
    let c5 = file.resolve(c1, 1, c4, 2);
    let c6 = file.resolve(c4, 1, c3, 1);
    file.resolve(c5, 1, c6, 3);
    file.finish()
}
