//! Files for the second readout, in which the variables of each line are numbered from 0 by first appearance.

use super::edges::sized;
use super::{deep, Example};
use crate::renaming::{other_numbers, other_order};
use crate::repeating::rows_twice;
use crate::sketch::{app, apply, neg, pos, var, SignedTerm, Sketch, Term};

/// Most variables of a literal that is not hidden: 53 beside 11 symbols, of which ten have six arguments and one has three.
pub const IN_A_LITERAL: u16 = 53;
/// Most literals of a clause.
const LITERALS: u16 = 128;
/// Most variables of a line.
pub const IN_A_LINE: u16 = IN_A_LITERAL * LITERALS;

/// All of them.
pub fn examples() -> Vec<Example> {
    let plain = planner(false);
    let named = |name: &str, file: Vec<u8>| Example::new(name, file);
    vec![
        named("planner", plain.clone()),
        named("planner-other-variables", other_numbers(&plain, 1)),
        named("planner-other-rows", rows_twice(&other_order(&other_numbers(&plain, 2), 2)).file),
        named("planner-other-indices", planner(true)),
        named("one-variable-twice", one_variable_twice()),
        named("one-number-at-three-indices", one_number_at_three_indices()),
        named("a-variable-for-another", a_variable_for_another()),
        named("hidden-first", hidden(&[65, 0, 0])),
        named("hidden-between", hidden(&[0, 65, 0])),
        named("hidden-last", hidden(&[0, 0, 65])),
        named("all-hidden", hidden(&[65, 66, 1000])),
        named("64-occurrences-first", hidden(&[64, 0, 0])),
        named("hidden-after-52-variables", full_and_hidden()),
        named("hidden-of-exponential-size", exponential()),
        named("the-last-variable-at-the-last-index", last_index()),
        named("most-variables-of-a-line", most_variables()),
        named("refused-after-two-lines", refused()),
        Example::on(21_000, "on-a-day", on_a_day()),
    ]
}

/// A rule with two conditions, met one after the other by units; or by the same with parents exchanged, which gives the
/// variables other indices and binds others of them.
fn planner(exchanged: bool) -> Vec<u8> {
    let mut file = Sketch::new();
    let [p, q, r, f] = [3, 2, 1, 1].map(|arity| file.symbol(arity));
    let (x, y, z) = (|| var(0), || var(1), || var(2));
    let rule = file.clause(&[
        neg(app(r, [z()])),
        pos(app(p, [x(), app(f, [y()]), z()])),
        neg(app(q, [y(), x()])),
        pos(app(q, [z(), y()])),
    ]);
    let any = file.clause(&[pos(app(r, [app(f, [y()])]))]);
    let equal = file.clause(&[pos(app(q, [x(), x()]))]);
    let known = file.clause(&[neg(app(q, [app(f, [y()]), x()]))]);
    let mut step = |rule, literal, unit| {
        if exchanged {
            file.resolve(unit, 1, rule, literal)
        } else {
            file.resolve(rule, literal, unit, 1)
        }
    };
    let open = step(rule, 1, any);
    step(open, 2, equal);
    step(open, 3, known);
    file.finish()
}

/// Clauses that are equal but for a variable that stands twice, and clauses that differ only in names.
fn one_variable_twice() -> Vec<u8> {
    let mut file = Sketch::new();
    let p = file.symbol(3);
    for numbers in [[0, 1, 2], [2, 1, 0], [0, 0, 1], [1, 1, 0], [0, 1, 0], [0, 1, 1], [63, 5, 5], [9, 9, 9]] {
        file.clause(&[
            pos(app(p, numbers.map(var))),
            neg(app(p, [2, 1, 0].map(|place| var(numbers[place])))),
        ]);
    }
    file.finish()
}

/// -q(x) +q(f(x)) +r(x,y) with itself and once more: every variable of one number stands at three indices.
fn one_number_at_three_indices() -> Vec<u8> {
    let mut file = Sketch::new();
    let [q, f, r] = [1, 1, 2].map(|arity| file.symbol(arity));
    let x = || app(q, [var(0)]);
    let rule = file.clause(&[neg(x()), pos(app(q, [app(f, [var(1)])])), pos(app(r, [var(0), var(1)]))]);
    let two = file.resolve(rule, 2, rule, 1);
    file.resolve(two, 3, rule, 1);
    file.resolve(rule, 2, two, 1);
    file.finish()
}

/// Variables that are bound to variables and to terms are not there: case F, and a factor that puts f(y) for x.
fn a_variable_for_another() -> Vec<u8> {
    let mut file = Sketch::new();
    let [p, f] = [2, 1].map(|arity| file.symbol(arity));
    let [x, y] = [0, 1].map(|number| move || var(number));
    let both = file.clause(&[pos(app(p, [x(), y()])), pos(app(p, [y(), x()]))]);
    file.factor(both, 1, 2);
    let nested = file.clause(&[
        pos(app(p, [x(), x()])),
        pos(app(p, [app(f, [y()]), x()])),
        neg(app(p, [var(2), x()])),
        neg(app(p, [y(), var(2)])),
    ]);
    file.factor(nested, 1, 2);
    file.finish()
}

/// Three literals on x and y, y and z, x and z: each of so many occurrences, or of 3 where that is 0. A long one begins with its
/// first variable.
fn hidden(sizes: &[usize; 3]) -> Vec<u8> {
    let mut file = Sketch::new();
    let [p, f, g] = [2, 1, 2].map(|arity| file.symbol(arity));
    let mut literals = Vec::new();
    for (&size, numbers) in sizes.iter().zip([[0, 1], [1, 2], [0, 2]]) {
        let [first, second] = numbers.map(|number| file.variable(number));
        // The symbol of the literal and its first variable are two more.
        let rest = if size == 0 { second } else { sized(&mut file, [f, g], size - 2, second) };
        literals.push((size % 2 == 0, file.application(p, &[first, rest])));
    }
    file.clause_of_rows(&literals);
    let [first, second, third] = [literals[0], literals[1], literals[2]];
    file.clause_of_rows(&[third, second, first]);
    file.finish()
}

/// The symbols of an atom that has as many variables as it can: one of six arguments, one of six more and one of three.
type Full = [u16; 3];

/// An atom of 64 occurrences with 53 variables from a number on, which go round at 64.
fn full(symbols: Full, from: u16) -> Term {
    filled(symbols, from, var((from + IN_A_LITERAL - 1) % 64))
}

/// The same with a symbol around its last variable: it has 65 occurrences, and is hidden after 52 variables.
fn too_full(symbols: Full, around: u16, from: u16) -> Term {
    filled(symbols, from, app(around, [var((from + IN_A_LITERAL - 1) % 64)]))
}

/// The same with any term last.
fn filled([p, f, g]: Full, from: u16, last: Term) -> Term {
    let mut next = (from..).map(|number| var(number % 64));
    let mut of = |symbol: u16, count: usize| apply(symbol, &next.by_ref().take(count).collect::<Vec<_>>());
    let mut arguments: Vec<Term> = (0..5).map(|_| of(f, 6)).collect();
    let mut sixth: Vec<Term> = (0..3).map(|_| of(f, 6)).collect();
    sixth.push(of(g, 3));
    sixth.extend(next.next());
    sixth.push(last);
    arguments.push(apply(f, &sixth));
    apply(p, &arguments)
}

/// Full literals and one that is too full, whose variables stand in the others too, in each order.
fn full_and_hidden() -> Vec<u8> {
    let mut file = Sketch::new();
    let [p, f, g, around, two] = [6, 6, 3, 1, 2].map(|arity| file.symbol(arity));
    let symbols = [p, f, g];
    let literals: [SignedTerm; 3] =
        [neg(too_full(symbols, around, 0)), pos(app(two, [var(52), var(0)])), neg(full(symbols, 0))];
    for order in [[0, 1, 2], [0, 2, 1], [1, 0, 2], [1, 2, 0], [2, 0, 1], [2, 1, 0]] {
        file.clause(&order.map(|place: usize| literals[place].clone()));
    }
    file.clause(&[neg(full(symbols, 20)), neg(too_full(symbols, around, 40)), neg(full(symbols, 60))]);
    file.finish()
}

/// A value of 2 to the 2,000 leaves, all of them one variable, before a literal on that variable alone.
fn exponential() -> Vec<u8> {
    deep::exponential_value(200)
}

/// -q +q so often that the clause -q +p(v63,v0,v63) after it comes to the last index.
fn last_index() -> Vec<u8> {
    let mut file = Sketch::new();
    let [q, p] = [0, 3].map(|arity| file.symbol(arity));
    let q = || app(q, []);
    let one = file.clause(&[neg(q()), pos(q())]);
    let last = file.clause(&[neg(q()), pos(app(p, [63, 0, 63].map(var)))]);
    let (mut power, mut sum) = (one, one);
    for _ in 1..12 {
        power = file.resolve(power, 2, power, 1);
        sum = file.resolve(sum, 2, power, 1);
    }
    file.resolve(sum, 2, last, 1);
    file.finish()
}

/// A file with the clauses of which lines with many variables are made.
struct Wide {
    file: Sketch,
    q: u16,
    symbols: Full,
    /// -q +p .. +p +q with 1, 2, 4, .. 64 literals on a full atom, each from a use of its own.
    powers: Vec<u16>,
}

impl Wide {
    fn new() -> Wide {
        let mut file = Sketch::new();
        let [q, p, f, g] = [0, 6, 6, 3].map(|arity| file.symbol(arity));
        let symbols = [p, f, g];
        let mut powers = vec![file.clause(&[neg(app(q, [])), pos(full(symbols, 0)), pos(app(q, []))])];
        for doubled in 0..6 {
            let half = powers[doubled];
            powers.push(file.resolve(half, 2 + (1 << doubled), half, 1));
        }
        Wide { file, q, symbols, powers }
    }

    /// A clause with q last, after so many literals, made longer by the powers from one on.
    fn longer(&mut self, mut clause: u16, mut literals: u16, from: usize) -> u16 {
        for (doubled, &power) in self.powers.iter().enumerate().skip(from) {
            clause = self.file.resolve(clause, literals + 1, power, 1);
            literals += 1 << doubled;
        }
        clause
    }
}

/// 128 literals with 53 variables each, every literal from a use of its own.
fn most_variables() -> Vec<u8> {
    let mut wide = Wide::new();
    let (q, atom) = (app(wide.q, []), full(wide.symbols, 0));
    let first = wide.file.clause(&[pos(atom.clone()), pos(q.clone())]);
    let last = wide.file.clause(&[neg(q), pos(atom)]);
    // 1 and 2 + 4 + .. + 64 literals, then the last one.
    let sum = wide.longer(first, 1, 1);
    wide.file.resolve(sum, LITERALS, last, 1);
    wide.file.finish()
}

/// 126 literals with 53 variables each in nearly all lines of a file of so many records, up to 4,050; with more the last index
/// is passed.
pub fn wide_lines(records: u16) -> Vec<u8> {
    let mut wide = Wide::new();
    let (q, two) = (app(wide.q, []), wide.powers[1]);
    let same = wide.file.clause(&[neg(q.clone()), pos(q)]);
    let mut clause = wide.longer(two, 3, 2);
    while wide.file.records() < records {
        clause = wide.file.resolve(same, 2, clause, 1);
    }
    wide.file.finish()
}

/// Two clauses, then one on a row that does not exist.
fn refused() -> Vec<u8> {
    let mut file = Sketch::new();
    let p = file.symbol(2);
    file.clause(&[pos(app(p, [var(7), var(3)]))]);
    file.clause(&[pos(app(p, [var(3), var(7)])), neg(app(p, [var(3), var(3)]))]);
    file.clause_of_rows(&[(true, 99)]);
    file.finish()
}

/// A refutation from rules of which one is in force on some days only.
fn on_a_day() -> Vec<u8> {
    let mut file = Sketch::new();
    let [p, a] = [2, 0].map(|arity| file.symbol(arity));
    let rule = file.clause(&[pos(app(p, [var(9), var(8)]))]);
    file.window(rule, 20_000, 21_000);
    let goal = file.clause(&[neg(app(p, [app(a, []), var(8)]))]);
    file.resolve(rule, 1, goal, 1);
    file.finish()
}
