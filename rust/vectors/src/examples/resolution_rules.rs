//! Lecture notes "General Resolution" (section 3.11): the rules of resolution and factoring, and the
//! rules SU of unification, each at work in a file. The outline examples of L. J. Henschen and
//! S. A. Naqvi, "An Improved Filter for Literal Indexing in Resolution Systems", stand beside them.

use super::Example;
use crate::sketch::{app, neg, pos, var, Sketch, Term};

/// One file for each rule.
pub fn examples() -> Vec<Example> {
    let [f, g] = [1, 2];
    let (x, y) = (var(0), var(1));
    let fx = app(f, [x.clone()]);
    let fz = app(f, [var(2)]);
    let gxy = app(g, [x.clone(), y.clone()]);
    vec![
        Example::new("rules-resolution", resolution()),
        Example::new("rules-factorization", factorization(true)),
        Example::new("rules-factorization-negative", factorization(false)),
        Example::new("rules-unify-equal", equation(fx.clone(), fx.clone())),
        Example::new("rules-unify-decompose", equation(gxy.clone(), app(g, [fz.clone(), fz]))),
        Example::new("rules-unify-clash", equation(fx.clone(), gxy)),
        Example::new("rules-unify-substitute", equation(x.clone(), app(f, [y]))),
        Example::new("rules-unify-occurs", equation(x.clone(), fx.clone())),
        Example::new("rules-unify-orient", equation(app(f, [app(3, [])]), x)),
        Example::new("outlines-1-and-2", outlines()),
    ]
}

/// D ∨ B and C ∨ ¬A give (D ∨ C)σ: D is d(x), B is p(x,f(y)), C is c(x), A is p(g(x,x),y).
fn resolution() -> Vec<u8> {
    let mut file = Sketch::new();
    let [p, d, c, f, g] = [2, 1, 1, 1, 2].map(|arity| file.symbol(arity));
    let left = file.clause(&[pos(app(d, [var(0)])), pos(app(p, [var(0), app(f, [var(1)])]))]);
    let right = file.clause(&[pos(app(c, [var(0)])), neg(app(p, [app(g, [var(0), var(0)]), var(1)]))]);
    file.resolve(left, 2, right, 2);
    file.finish()
}

/// C ∨ A ∨ B gives (C ∨ A)σ: C is c(x), A is p(x,f(y)), B is p(f(y),x). Either sign.
fn factorization(positive: bool) -> Vec<u8> {
    let mut file = Sketch::new();
    let [p, c, f] = [2, 1, 1].map(|arity| file.symbol(arity));
    let fy = app(f, [var(1)]);
    let clause = file.clause(&[
        pos(app(c, [var(0)])),
        (positive, app(p, [var(0), fy.clone()])),
        (positive, app(p, [fy, var(0)])),
    ]);
    file.factor(clause, 2, 3);
    file.finish()
}

/// The rule RIF, resolution with implicit factorization, for either sign of the right literals.
pub fn implicit_factorization() -> Vec<Example> {
    vec![Example::new("rules-RIF", rif(true)), Example::new("rules-RIF-negative", rif(false))]
}

/// D ∨ B1 ∨ B2 ∨ B3 and C ∨ ¬A give (D ∨ C)σ with σ = mgu(A, B1, B2, B3): D is d(x,y,z), B1 is p(x,f(y)), B2 is
/// p(g(y,y),z), B3 is p(z,f(a)); C is c(x,y) and A is p(x,y). The clause of A is the left one. There is no unifier:
/// x is both g(y,y) and z, which is f(y). With p(x,z) for B3 there is one.
fn rif(positive: bool) -> Vec<u8> {
    let mut file = Sketch::new();
    let [p, d, c, f, g, a] = [2, 3, 2, 1, 2, 0].map(|arity| file.symbol(arity));
    let [x, y, z] = [0, 1, 2].map(|number| move || var(number));
    let b1 = app(p, [x(), app(f, [y()])]);
    let b2 = app(p, [app(g, [y(), y()]), z()]);
    let [b3, clash] = [app(p, [x(), z()]), app(p, [z(), app(f, [app(a, [])])])];
    let left = file.clause(&[pos(app(c, [x(), y()])), (!positive, app(p, [x(), y()]))]);
    let [right, other] = [b3, clash].map(|last| {
        let rest = pos(app(d, [x(), y(), z()]));
        file.clause(&[rest, (positive, b1.clone()), (positive, b2.clone()), (positive, last)])
    });
    file.resolve_several(left, 2, right, &[2, 3, 4]);
    file.resolve_several(left, 2, other, &[2, 3, 4]);
    file.finish()
}

/// One equation s = t as a factor on p(s) and p(t). Symbols: p, f of one argument, g of two, a.
fn equation(s: Term, t: Term) -> Vec<u8> {
    let mut file = Sketch::new();
    let [p, _, _, _] = [1, 1, 2, 0].map(|arity| file.symbol(arity));
    let clause = file.clause(&[pos(app(p, [s])), pos(app(p, [t]))]);
    file.factor(clause, 1, 2);
    file.finish()
}

/// P(g(x),a,f(a,b,y)) and P(x,y,f(y,b,z)): outlines that agree, and a unifier exists.
fn outlines() -> Vec<u8> {
    let mut file = Sketch::new();
    let [p, g, f, a, b] = [3, 1, 3, 0, 0].map(|arity| file.symbol(arity));
    let (ca, cb) = (app(a, []), app(b, []));
    let left = file.clause(&[pos(app(p, [app(g, [var(0)]), ca.clone(), app(f, [ca, cb.clone(), var(1)])]))]);
    let right =
        file.clause(&[neg(app(p, [var(0), var(1), app(f, [var(1), cb, var(2)])])), pos(app(g, [var(2)]))]);
    file.resolve(left, 1, right, 1);
    file.finish()
}
