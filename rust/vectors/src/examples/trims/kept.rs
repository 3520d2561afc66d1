//! Which clauses, rows and symbols are kept, by steps of every kind.

use yestrwyn_types::record::{kind, read, Record};

use super::on;
use crate::examples::refutations::{factored, opposites, refuted, several, with_itself};
use crate::examples::Example;
use crate::sketch::{app, neg, pos, var, Sketch};

/// All of them, on day 7.
pub fn examples() -> Vec<Example> {
    let mut all = whole();
    all.extend(clauses());
    all.extend(symbols());
    all
}

/// Files of which everything is kept, with a step of each kind; and each with an unused clause after the steps, and with two before all else.
fn whole() -> Vec<Example> {
    let files = [
        ("resolve", refuted(1)),
        ("with-itself", with_itself()),
        ("factor", factored()),
        ("several", several()),
        ("four-right-literals", four_right_literals()),
    ];
    let all = |(name, file): (&str, Sketch)| {
        let mut longer = file.clone();
        let unused = longer.symbol(0);
        longer.clause(&[neg(app(unused, [])), pos(app(unused, []))]);
        [
            on(7, &format!("unused-rules-before-{name}"), behind_unused(file.bytes())),
            on(7, &format!("all-of-{name}"), file),
            on(7, &format!("an-unused-rule-after-{name}"), longer),
        ]
    };
    files.into_iter().flat_map(all).collect()
}

/// An unused symbol, two rows and two clauses, then the records of a file with their numbers raised.
fn behind_unused(other: &[u8]) -> Sketch {
    let mut file = Sketch::new();
    let unused = file.symbol(1);
    file.clause(&[neg(app(unused, [var(50)]))]);
    file.clause(&[pos(app(unused, [var(50)]))]);
    for record in (0..).map_while(|number| read(other, number)) {
        let mut fields = record.fields;
        let count = usize::from(record.count);
        match record.kind {
            kind::APPLICATION => {
                fields[0] += 1;
                fields[1..=count].iter_mut().for_each(|row| *row += 2);
            }
            kind::INPUT => fields[..count].iter_mut().for_each(|code| *code += 4),
            kind::RESOLVE | kind::RESOLVE_SEVERAL => [0, 2].iter().for_each(|&parent| fields[parent] += 2),
            kind::FACTOR | kind::WINDOW => fields[0] += 2,
            _ => {}
        }
        file.raw(Record { fields, ..record });
    }
    file
}

/// +p(x) against a clause of five literals: one goes in a step of its own, and the other four together.
fn four_right_literals() -> Sketch {
    let mut file = Sketch::new();
    let p = file.symbol(1);
    let left = file.clause(&[pos(app(p, [var(0)]))]);
    let literals = [0, 1, 2, 3, 4].map(|number| neg(app(p, [var(number)])));
    let right = file.clause(&literals);
    let rest = file.resolve_several(left, 1, right, &[3]);
    file.resolve_several(left, 1, rest, &[1, 2, 3, 4]);
    file
}

/// A symbol of six arguments and a clause of seven literals: every field of a record is renumbered. Unused records stand before
/// each of them.
fn full_records() -> Sketch {
    let mut file = Sketch::new();
    file.symbol(3);
    let p = file.symbol(6);
    file.variable(63);
    let constants = [(); 6].map(|()| {
        file.symbol(0);
        let constant = file.symbol(0);
        file.application(constant - 1, &[]);
        file.application(constant, &[])
    });
    let atom = file.application(p, &constants);
    let turned = {
        let [a, b, c, d, e, f] = constants;
        file.application(p, &[f, e, d, c, b, a])
    };
    file.clause_of_rows(&[(true, turned)]);
    let long = file.clause_of_rows(&[(false, atom); 7]);
    let unit = file.clause_of_rows(&[(true, atom)]);
    let rest = file.resolve_several(unit, 1, long, &[1, 3, 5, 7]);
    file.resolve_several(unit, 1, rest, &[1, 2, 3]);
    file
}

/// Parents of parents, clauses used many times, and clauses that go between, before and after those that stay.
fn clauses() -> Vec<Example> {
    vec![
        on(7, "parents-of-parents", far_away()),
        on(7, "one-rule-used-many-times", used_many_times()),
        on(7, "a-derived-clause-used-twice", derived_twice()),
        on(7, "two-empty-clauses", refuted(2)),
        on(7, "unused-steps-between", unused_steps()),
        on(7, "a-step-on-the-empty-clauses-parents-again", again()),
        on(7, "six-arguments-and-seven-literals", full_records()),
        on(7, "an-empty-input-clause", empty_input()),
    ]
}

/// +p0, then rules that lead from each symbol to the next, up to -p12, with a rule for another symbol before each.
fn far_away() -> Sketch {
    let mut file = Sketch::new();
    let symbols: Vec<u16> = (0..=12).map(|_| file.symbol(0)).collect();
    let other = file.symbol(0);
    let mut known = file.clause(&[pos(app(symbols[0], []))]);
    for pair in symbols.windows(2) {
        file.clause(&[neg(app(other, [])), pos(app(pair[0], []))]);
        let rule = file.clause(&[neg(app(pair[0], [])), pos(app(pair[1], []))]);
        known = file.resolve(known, 1, rule, 1);
    }
    let goal = file.clause(&[neg(app(symbols[12], []))]);
    file.resolve(known, 1, goal, 1);
    file
}

/// A rule that is used in forty steps, which all count for the maximum index, and kept once.
fn used_many_times() -> Sketch {
    let mut file = Sketch::new();
    let [q, unused] = [1, 2].map(|arity| file.symbol(arity));
    let [f, a] = [1, 0].map(|arity| file.symbol(arity));
    file.clause(&[pos(app(unused, [var(0), var(1)]))]);
    let mut known = file.clause(&[pos(app(q, [app(a, [])]))]);
    let rule = file.clause(&[neg(app(q, [var(0)])), pos(app(q, [app(f, [var(0)])]))]);
    for _ in 0..40 {
        known = file.resolve(known, 1, rule, 1);
    }
    let goal = file.clause(&[neg(app(q, [var(5)]))]);
    file.resolve(known, 1, goal, 1);
    file
}

/// A rule doubled twice by resolution with itself, then used: each derived clause is a parent on both sides.
fn derived_twice() -> Sketch {
    let mut file = Sketch::new();
    let [p, f, a] = [1, 1, 0].map(|arity| file.symbol(arity));
    let rule = file.clause(&[neg(app(p, [var(0)])), pos(app(p, [app(f, [var(0)])]))]);
    let two = file.resolve(rule, 2, rule, 1);
    let three = file.resolve(two, 2, rule, 1);
    let four = file.resolve(two, 2, two, 1);
    let start = file.clause(&[pos(app(p, [app(a, [])]))]);
    let reached = file.resolve(start, 1, four, 1);
    file.resolve(start, 1, three, 1);
    let goal = file.clause(&[neg(app(p, [var(0)]))]);
    file.resolve(reached, 1, goal, 1);
    file
}

/// Two rules and a fact, and steps between the used ones whose clauses nothing uses.
fn unused_steps() -> Sketch {
    let mut file = Sketch::new();
    let [p, q, r] = [0; 3].map(|arity| file.symbol(arity));
    let [p, q, r] = [p, q, r].map(|symbol| app(symbol, []));
    let either = file.clause(&[pos(p.clone()), pos(q.clone()), pos(p.clone())]);
    let not_p = file.clause(&[neg(p.clone())]);
    let not_q = file.clause(&[neg(q.clone())]);
    let unused = file.resolve(either, 2, not_q, 1);
    let factor = file.factor(either, 1, 3);
    file.factor(unused, 1, 2);
    let rest = file.resolve(factor, 1, not_p, 1);
    file.clause(&[pos(r.clone()), neg(q)]);
    file.resolve_several(not_p, 1, unused, &[1, 2]);
    file.resolve(rest, 1, not_q, 1);
    file.clause(&[neg(r)]);
    file
}

/// The step that makes the empty clause, three times: the first is accepted.
fn again() -> Sketch {
    let mut file = refuted(1);
    file.resolve(0, 1, 1, 1);
    file.resolve(1, 1, 0, 1);
    file
}

/// An input clause without literals among others: all that is kept is its record.
fn empty_input() -> Sketch {
    let mut file = opposites(1);
    file.clause(&[]);
    file.resolve(0, 1, 1, 1);
    file
}

/// Symbols that only rows use that go, of the arities of those that stay; and symbols that stand after the rows of others.
fn symbols() -> Vec<Example> {
    let mut apart = Sketch::new();
    let [a, b, p, q] = [0, 0, 1, 1].map(|arity| apart.symbol(arity));
    let [a, b] = [a, b].map(|symbol| app(symbol, []));
    apart.clause(&[pos(app(p, [a])), neg(app(q, [b.clone()]))]);
    let yes = apart.clause(&[pos(app(q, [b.clone()]))]);
    let late = apart.symbol(1);
    let rule = apart.clause(&[neg(app(q, [var(1)])), pos(app(late, [var(1)]))]);
    let no = apart.clause(&[neg(app(late, [b]))]);
    let known = apart.resolve(yes, 1, rule, 1);
    apart.resolve(known, 1, no, 1);
    // The row p(g(a)) goes; its part g(a) stays, because q(g(a)) does.
    let mut parts = Sketch::new();
    let [p, q, g, a] = [1, 1, 1, 0].map(|arity| parts.symbol(arity));
    let inner = app(g, [app(a, [])]);
    parts.clause(&[pos(app(p, [inner.clone()]))]);
    let yes = parts.clause(&[pos(app(q, [inner]))]);
    let no = parts.clause(&[neg(app(q, [app(g, [var(0)])]))]);
    parts.resolve(yes, 1, no, 1);
    // A symbol is both a predicate that goes and a function that stays.
    let mut both = Sketch::new();
    let [p, f] = [1, 1].map(|arity| both.symbol(arity));
    both.clause(&[pos(app(f, [var(0)]))]);
    let yes = both.clause(&[pos(app(p, [app(f, [var(0)])]))]);
    let no = both.clause(&[neg(app(p, [var(0)]))]);
    both.resolve(yes, 1, no, 1);
    vec![
        on(7, "symbols-of-rows-that-go", apart),
        on(7, "a-part-of-a-row-that-goes", parts),
        on(7, "a-symbol-of-two-uses", both),
    ]
}
