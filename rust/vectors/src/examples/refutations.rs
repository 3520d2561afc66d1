//! Small files that refute their clauses, for the vectors with days, for those of boards and for those of trims.

use crate::sketch::{app, neg, pos, var, Sketch};

/// +p and -p for each of so many symbols p: clauses 2 × k and 2 × k + 1.
pub(super) fn opposites(count: u16) -> Sketch {
    let mut file = Sketch::new();
    for _ in 0..count {
        let p = file.symbol(0);
        file.clause(&[pos(app(p, []))]);
        file.clause(&[neg(app(p, []))]);
    }
    file
}

/// The same, with the empty clause made of each two.
pub(super) fn refuted(count: u16) -> Sketch {
    let mut file = opposites(count);
    for pair in 0..count {
        file.resolve(2 * pair, 1, 2 * pair + 1, 1);
    }
    file
}

/// -p(x) +p(f(x)) with itself, then refuted with +p(a) and -p(f(f(a))).
pub(super) fn with_itself() -> Sketch {
    let mut file = Sketch::new();
    let [p, f, a] = [1, 1, 0].map(|arity| file.symbol(arity));
    let f = |inner| app(f, [inner]);
    let rule = file.clause(&[neg(app(p, [var(0)])), pos(app(p, [f(var(0))]))]);
    let start = file.clause(&[pos(app(p, [app(a, [])]))]);
    let goal = file.clause(&[neg(app(p, [f(f(app(a, [])))]))]);
    let twice = file.resolve(rule, 2, rule, 1);
    let reached = file.resolve(start, 1, twice, 1);
    file.resolve(reached, 1, goal, 1);
    file
}

/// +p(x) +p(y), factored and refuted with -p(a).
pub(super) fn factored() -> Sketch {
    let mut file = Sketch::new();
    let [p, a] = [1, 0].map(|arity| file.symbol(arity));
    let either = file.clause(&[pos(app(p, [var(0)])), pos(app(p, [var(1)]))]);
    let goal = file.clause(&[neg(app(p, [app(a, [])]))]);
    let factor = file.factor(either, 1, 2);
    file.resolve(factor, 1, goal, 1);
    file
}

/// +p(x) and -p(y) -p(z), refuted in one step on two right literals.
pub(super) fn several() -> Sketch {
    let mut file = Sketch::new();
    let p = file.symbol(1);
    let left = file.clause(&[pos(app(p, [var(0)]))]);
    let right = file.clause(&[neg(app(p, [var(0)])), neg(app(p, [var(1)]))]);
    file.resolve_several(left, 1, right, &[1, 2]);
    file
}
