//! Files whose terms or derivations are as deep as the limits let them be.

use super::Example;
use crate::sketch::{app, neg, pos, var, Sketch, Term};

/// Deep terms, deep derivations and values of exponential size.
pub fn examples() -> Vec<Example> {
    vec![
        Example::new("deep-14336-nested", two_rules(7)),
        Example::new("deep-16384-nested", two_rules(8)),
        Example::new("deep-16382-nested", two_nested(8, 6)),
        Example::new("deep-16383-nested", two_nested(8, 7)),
        Example::new("deep-occurrence-16381", deep_occurrence(5)),
        Example::new("deep-occurrence-16382", deep_occurrence(6)),
        Example::new("deep-occurs-16379", deep_occurs(3)),
        Example::new("deep-occurs-16380", deep_occurs(4)),
        Example::new("deep-derivation-4000", derivation(4000)),
        Example::new("deep-factors-right-parents", right_derivation(100)),
        Example::new("deep-twelve-doublings", doublings(12)),
        Example::new("deep-thirteen-doublings", doublings(13)),
        Example::new("deep-nested-first", two_first()),
        Example::new("deep-occurrence-first", occurrence_first()),
        Example::new("deep-derivation-two-derived", two_derived(4000)),
        Example::new("deep-exponential-refused", exponential_refused()),
        Example::new("deep-exponential-value", exponential_value(60)),
        Example::new("deep-outline-first", deep_outline(2, Leaf::Variable)),
        Example::new("deep-outline-clash", deep_outline(2, Leaf::Constant)),
        Example::new("deep-outline-wide", deep_outline(6, Leaf::Variable)),
    ]
}

/// A term wrapped in a one-place symbol some number of times.
pub fn nested(symbol: u16, times: usize, inner: Term) -> Term {
    (0..times).fold(inner, |term, _| app(symbol, [term]))
}

/// The symbols of these files: q(·), f(·) and a constant.
fn symbols(file: &mut Sketch) -> [u16; 3] {
    [1, 1, 0].map(|arity| file.symbol(arity))
}

/// Derives ±q(f^n(inner)), where the start is f^rest(inner) and n = size × 2,047 + rest, at index
/// 2,048. The rule ∓q(x) ±q(f^size(x)) is doubled by resolution with itself, and each doubling is
/// applied to the start.
fn nested_unit(file: &mut Sketch, [q, f, _]: [u16; 3], positive: bool, size: usize, start: Term) -> u16 {
    let rule = file.clause(&[(!positive, app(q, [var(0)])), (positive, app(q, [nested(f, size, var(0))]))]);
    let unit = file.clause(&[(positive, app(q, [start]))]);
    apply_doublings(file, unit, rule)
}

/// Resolves a unit with a rule, with the rule doubled, with that doubled, and so on: 2,047 uses.
fn apply_doublings(file: &mut Sketch, unit: u16, rule: u16) -> u16 {
    let mut rule = rule;
    let mut unit = file.resolve(unit, 1, rule, 1);
    for _ in 0..10 {
        rule = file.resolve(rule, 2, rule, 1);
        unit = file.resolve(unit, 1, rule, 1);
    }
    unit
}

/// Two terms of size × 2,047 + rest nested applications over a constant, unified.
pub fn two_nested(size: usize, rest: usize) -> Vec<u8> {
    let mut file = Sketch::new();
    let symbols = symbols(&mut file);
    let [_, f, a] = symbols;
    let inner = nested(f, rest, app(a, []));
    let left = nested_unit(&mut file, symbols, true, size, inner.clone());
    let right = nested_unit(&mut file, symbols, false, size, inner);
    file.resolve(left, 1, right, 1);
    file.finish()
}

/// Two terms of size × 2,048 nested applications over a variable, unified, in few records: the rules
/// -q(x) +q(f^size(x)) and +q(x) -q(f^size(x)) are both doubled eleven times.
pub fn two_rules(size: usize) -> Vec<u8> {
    let mut file = Sketch::new();
    let [q, f] = [1, 1].map(|arity| file.symbol(arity));
    let doubled = [true, false].map(|positive| {
        let deep = app(q, [nested(f, size, var(0))]);
        let rule = file.clause(&[(!positive, app(q, [var(0)])), (positive, deep)]);
        (0..11).fold(rule, |rule, _| file.resolve(rule, 2, rule, 1))
    });
    file.resolve(doubled[0], 2, doubled[1], 2);
    file.finish()
}

/// A term as the first of two arguments, some number of times.
fn nested_first(symbol: u16, constant: u16, times: usize, inner: Term) -> Term {
    (0..times).fold(inner, |term, _| app(symbol, [term, app(constant, [])]))
}

/// The rule ∓q(x) ±q(t) where t is x nested 16,384 deep in the first of two arguments: 14,336 by
/// doublings of one rule, 2,048 by doublings of another.
fn first_rule(file: &mut Sketch, [q, f, a]: [u16; 3], positive: bool) -> u16 {
    let [long, short] = [112, 16].map(|size| {
        let deep = app(q, [nested_first(f, a, size, var(0))]);
        let rule = file.clause(&[(!positive, app(q, [var(0)])), (positive, deep)]);
        (0..7).fold(rule, |rule, _| file.resolve(rule, 2, rule, 1))
    });
    file.resolve(long, 1, short, 2)
}

/// Two terms nested 16,384 deep in first arguments, unified: the walk goes as deep as its work lets it.
fn two_first() -> Vec<u8> {
    let mut file = Sketch::new();
    let symbols = [1, 2, 0].map(|arity| file.symbol(arity));
    let [left, right] = [true, false].map(|positive| first_rule(&mut file, symbols, positive));
    file.resolve(left, 1, right, 1);
    file.finish()
}

/// A variable bound to a term nested 16,384 deep in first arguments: so does the occurrence test.
fn occurrence_first() -> Vec<u8> {
    let mut file = Sketch::new();
    let symbols = [1, 2, 0].map(|arity| file.symbol(arity));
    let left = first_rule(&mut file, symbols, true);
    let right = file.clause(&[neg(app(symbols[0], [var(0)]))]);
    file.resolve(left, 1, right, 1);
    file.finish()
}

/// A count upward by a derived rule, so that both parents of every step are derived.
pub fn two_derived(steps: u16) -> Vec<u8> {
    let mut file = Sketch::new();
    let [q, f, a] = symbols(&mut file);
    let mut known = file.clause(&[pos(app(q, [app(a, [])]))]);
    let rule = file.clause(&[
        neg(app(q, [var(0)])),
        pos(app(q, [app(f, [var(0)])])),
        pos(app(q, [app(f, [var(0)])])),
    ]);
    let rule = file.factor(rule, 2, 3);
    for _ in 0..steps {
        known = file.resolve(known, 1, rule, 1);
    }
    file.finish()
}

/// A variable bound to a term of 8 × 2,047 + rest nested applications: the test goes through it all.
fn deep_occurrence(rest: usize) -> Vec<u8> {
    let mut file = Sketch::new();
    let symbols = symbols(&mut file);
    let [q, f, a] = symbols;
    let left = nested_unit(&mut file, symbols, true, 8, nested(f, rest, app(a, [])));
    let right = file.clause(&[neg(app(q, [var(0)]))]);
    file.resolve(left, 1, right, 1);
    file.finish()
}

/// p(x, f^n(x)) against p(z, z) with n = 8 × 2,047 + rest: z occurs in its own value, n deep.
fn deep_occurs(rest: usize) -> Vec<u8> {
    let mut file = Sketch::new();
    let [p, f] = [2, 1].map(|arity| file.symbol(arity));
    let rule = file.clause(&[neg(app(p, [var(0), var(1)])), pos(app(p, [var(0), nested(f, 8, var(1))]))]);
    let unit = file.clause(&[pos(app(p, [var(0), nested(f, rest, var(0))]))]);
    let left = apply_doublings(&mut file, unit, rule);
    let right = file.clause(&[neg(app(p, [var(2), var(2)]))]);
    file.resolve(left, 1, right, 1);
    file.finish()
}

/// A count upward: each step resolves the last result with the rule, as left parent.
pub fn derivation(steps: u16) -> Vec<u8> {
    let mut file = Sketch::new();
    let [q, f, a] = symbols(&mut file);
    let mut known = file.clause(&[pos(app(q, [app(a, [])]))]);
    let rule = file.clause(&[neg(app(q, [var(0)])), pos(app(q, [app(f, [var(0)])]))]);
    for _ in 0..steps {
        known = file.resolve(known, 1, rule, 1);
    }
    file.finish()
}

/// A derivation that goes down through right parents and factors.
pub fn right_derivation(steps: u16) -> Vec<u8> {
    let mut file = Sketch::new();
    let [q, f, a] = symbols(&mut file);
    let mut known = file.clause(&[pos(app(q, [app(a, [])])), pos(app(q, [app(a, [])]))]);
    let rule = file.clause(&[pos(app(q, [app(f, [var(0)])])), neg(app(q, [var(0)]))]);
    let twice = file.clause(&[neg(app(q, [var(0)])), pos(app(q, [var(0)])), pos(app(q, [var(0)]))]);
    for _ in 0..steps {
        let first = file.resolve(rule, 2, known, 1);
        let second = file.resolve(rule, 2, first, 2);
        known = file.factor(second, 2, 1);
        known = file.resolve(rule, 2, known, 1);
        known = file.resolve(twice, 1, known, 1);
    }
    file.finish()
}

/// -q(x) +q(f(x)) resolved with itself again and again.
pub fn doublings(steps: u16) -> Vec<u8> {
    let mut file = Sketch::new();
    let [q, f, _] = symbols(&mut file);
    let mut rule = file.clause(&[neg(app(q, [var(0)])), pos(app(q, [app(f, [var(0)])]))]);
    for _ in 0..steps {
        rule = file.resolve(rule, 2, rule, 1);
    }
    file.finish()
}

/// -q(x) +q(g(x,x)) doubled: the fifth occurrence test would go through 2^17 - 1 occurrences.
fn exponential_refused() -> Vec<u8> {
    let mut file = Sketch::new();
    let [q, g] = [1, 2].map(|arity| file.symbol(arity));
    let mut rule = file.clause(&[neg(app(q, [var(0)])), pos(app(q, [app(g, [var(0), var(0)])]))]);
    for _ in 0..6 {
        rule = file.resolve(rule, 2, rule, 1);
    }
    file.finish()
}

/// A value that each step makes 1,024 times as large at little work: x1 is a tree of x2, x2 one of
/// x3, and so on, bound in that order.
pub fn exponential_value(steps: u16) -> Vec<u8> {
    let mut file = Sketch::new();
    let [q, g] = [1, 2].map(|arity| file.symbol(arity));
    let mut tree = file.variable(0);
    let from = file.application(q, &[tree]);
    for _ in 0..10 {
        tree = file.application(g, &[tree, tree]);
    }
    let to = file.application(q, &[tree]);
    let rule = file.clause_of_rows(&[(true, to), (false, from)]);
    let mut clause = rule;
    for _ in 0..steps {
        clause = file.resolve(clause, 2, rule, 1);
    }
    file.finish()
}

/// What stands at the bottom of a deep outline.
#[derive(Clone, Copy)]
enum Leaf {
    Variable,
    Constant,
}

/// As many rows as fit, each with the one before as its first argument: the last but one against the last is
/// compared 4,091 pairs deep, while the other arguments wait. At the bottom stands a variable, or a constant,
/// which clashes.
fn deep_outline(arity: u8, leaf: Leaf) -> Vec<u8> {
    let mut file = Sketch::new();
    let f = file.symbol(arity);
    let [leaf, other] = match leaf {
        Leaf::Variable => [0, 1].map(|number| file.variable(number)),
        Leaf::Constant => {
            let a = file.symbol(0);
            [file.application(a, &[]); 2]
        }
    };
    let mut arguments = vec![other; usize::from(arity)];
    let mut rows = [leaf; 2];
    // The clause and the step are the last records.
    while file.records() + 2 < 4096 {
        arguments[0] = rows[1];
        rows = [rows[1], file.application(f, &arguments)];
    }
    let clause = file.clause_of_rows(&[(true, rows[1]), (false, rows[0])]);
    file.resolve(clause, 1, clause, 2);
    file.finish()
}
