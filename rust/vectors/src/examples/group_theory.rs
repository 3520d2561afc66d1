//! J. A. Robinson, "Computational Logic: The Unification Computation", 1971.

use super::Example;
use crate::sketch::{app, neg, pos, var, Sketch, Term};

/// The paper's two systems, and a refutation of the five clauses of its figure 4.
pub fn examples() -> Vec<Example> {
    vec![
        Example::new("robinson-system-1", system_1()),
        Example::new("robinson-system-2", system_2()),
        Example::new("robinson-figure-4", figure_4()),
    ]
}

/// P1 = {f(x,g(x,y)), z}, P2 = {h(z,y), h(f(a,b),f(d,c))}, where a to d are variables too.
/// The two sets become the two arguments of one predicate, and the step is a factor.
pub fn system_1() -> Vec<u8> {
    let mut file = Sketch::new();
    let [p, f, g, h] = [2, 2, 2, 2].map(|arity| file.symbol(arity));
    let [x, y, z, a, b, c, d] = [0, 1, 2, 3, 4, 5, 6].map(var);
    let clause = file.clause(&[
        pos(app(p, [app(f, [x.clone(), app(g, [x, y.clone()])]), app(h, [z.clone(), y])])),
        pos(app(p, [z, app(h, [app(f, [a, b]), app(f, [d, c])])])),
    ]);
    file.factor(clause, 1, 2);
    file.finish()
}

/// P1 = {Q(x,f(x)), Q(f(x),x)}: no substitution unifies it.
pub fn system_2() -> Vec<u8> {
    let mut file = Sketch::new();
    let [q, f] = [2, 1].map(|arity| file.symbol(arity));
    let fx = app(f, [var(0)]);
    let clause = file.clause(&[pos(app(q, [var(0), fx.clone()])), pos(app(q, [fx, var(0)]))]);
    file.factor(clause, 1, 2);
    file.finish()
}

/// Figure 4: an associative product with left and right solutions has a right identity.
/// The paper gives the clauses (its variables are numbered from 0 in each); the refutation is ours.
pub fn figure_4() -> Vec<u8> {
    let mut file = Sketch::new();
    let [p, g, h, k] = [3, 2, 2, 1].map(|arity| file.symbol(arity));
    let [x, y, z, u, v, w] = [0, 1, 2, 3, 4, 5].map(var);
    let product = |a: &Term, b: &Term, c: &Term| app(p, [a.clone(), b.clone(), c.clone()]);
    let one = file.clause(&[
        neg(product(&x, &y, &u)),
        neg(product(&y, &z, &v)),
        neg(product(&x, &v, &w)),
        pos(product(&u, &z, &w)),
    ]);
    file.clause(&[
        neg(product(&x, &y, &u)),
        neg(product(&y, &z, &v)),
        neg(product(&u, &z, &w)),
        pos(product(&x, &v, &w)),
    ]);
    let three = file.clause(&[pos(product(&app(g, [x.clone(), y.clone()]), &x, &y))]);
    let four = file.clause(&[pos(product(&x, &app(h, [x.clone(), y.clone()]), &y))]);
    let kx = app(k, [x.clone()]);
    let five = file.clause(&[neg(product(&kx, &x, &kx))]);
    let goals = file.resolve(five, 1, one, 4);
    let solved_first = file.resolve(goals, 1, three, 1);
    let solved_second = file.resolve(solved_first, 1, four, 1);
    file.resolve(solved_second, 1, three, 1);
    file.finish()
}
