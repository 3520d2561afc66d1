//! Long files: thousands of unused records, and files of which all 4,096 are kept.

use yestrwyn_types::limits::RECORDS;

use super::on;
use crate::examples::refutations::refuted;
use crate::examples::Example;
use crate::sketch::{app, neg, pos, var, Sketch};

/// All of them, on day 21,000.
pub fn examples() -> Vec<Example> {
    let mut symbols = Sketch::new();
    for _ in 0..RECORDS - 6 {
        symbols.symbol(2);
    }
    let p = symbols.symbol(0);
    let yes = symbols.clause(&[pos(app(p, []))]);
    let no = symbols.clause(&[neg(app(p, []))]);
    symbols.resolve(yes, 1, no, 1);
    symbols.window(no, 21_000, 21_000);
    let mut windows = refuted(1);
    for day in 0..4091 {
        windows.window(u16::from(day % 3 == 0), day, 40_000);
    }
    vec![
        on(21_000, "thousands-of-unused-rules", many_rules()),
        on(21_000, "thousands-of-unused-symbols", symbols),
        on(21_000, "thousands-of-superseded-days", windows),
        on(21_000, "all-of-4096-records", many_steps(4091)),
        on(21_000, "all-of-300-steps", many_steps(300)),
    ]
}

/// A rulebook of 800 rules that lead from place to place, each with a symbol and days of its own, and a proof that uses every
/// hundredth of them.
pub fn many_rules() -> Sketch {
    let mut file = Sketch::new();
    let [reached, home] = [1, 0].map(|arity| file.symbol(arity));
    let mut known = file.clause(&[pos(app(reached, [app(home, [])]))]);
    let mut from = app(reached, [var(0)]);
    let mut used = Vec::new();
    for number in 1..=800 {
        let place = file.symbol(0);
        let to = app(reached, [app(place, [])]);
        let rule = file.clause(&[neg(from.clone()), pos(to.clone())]);
        file.window(rule, number, 30_000);
        if number % 100 == 0 {
            used.push(rule);
            from = to;
        }
    }
    let goal = file.clause(&[neg(from)]);
    for rule in used {
        known = file.resolve(known, 1, rule, 1);
    }
    file.resolve(known, 1, goal, 1);
    file
}

/// +q, -q +q and -q, and a count of so many steps to the empty clause, all of which are kept.
pub fn many_steps(steps: usize) -> Sketch {
    let mut file = Sketch::new();
    let q = file.symbol(0);
    let mut known = file.clause(&[pos(app(q, []))]);
    let rule = file.clause(&[neg(app(q, [])), pos(app(q, []))]);
    let goal = file.clause(&[neg(app(q, []))]);
    for _ in 1..steps {
        known = file.resolve(known, 1, rule, 1);
    }
    file.resolve(known, 1, goal, 1);
    file
}
