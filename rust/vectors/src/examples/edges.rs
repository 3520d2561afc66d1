//! Each limit of the format at its edge and one past it.

use yestrwyn_types::limits::BINDINGS;
use yestrwyn_types::record::kind;

use super::cases::case_k;
use super::{outlines, repeats, several, Example};
use crate::sketch::{app, apply, neg, pos, var, SignedTerm, Sketch, Term};

/// All of them.
pub fn examples() -> Vec<Example> {
    let mut all = ranges();
    all.extend(lengths());
    all.extend(works());
    all.extend(bindings());
    all.extend(sizes());
    all.extend(occurrences());
    all.extend(counts());
    all.extend(outlines::edges());
    all.extend(repeats::edges());
    all.extend(several::edges());
    all
}

/// Arity, variable number, argument count and literal count.
fn ranges() -> Vec<Example> {
    let one = |kind: u8, count: u8, fields: &[u16]| {
        let mut file = Sketch::new();
        file.fields(kind, count, fields);
        file.finish()
    };
    vec![
        Example::new("arity-6", one(kind::SYMBOL, 6, &[])),
        Example::new("arity-7", one(kind::SYMBOL, 7, &[])),
        Example::new("arity-255", one(kind::SYMBOL, 255, &[])),
        Example::new("variable-63", one(kind::VARIABLE, 0, &[63])),
        Example::new("variable-64", one(kind::VARIABLE, 0, &[64])),
        Example::new("variable-256", one(kind::VARIABLE, 0, &[256])),
        Example::new("arguments-6", arguments(6)),
        Example::new("arguments-7", arguments(7)),
        Example::new("literals-7", literals(7)),
        Example::new("literals-8", literals(8)),
        Example::new("literals-255", literals(255)),
        Example::new("highest-row", highest_row(0)),
        Example::new("past-highest-row", highest_row(1)),
    ]
}

/// An application with a count of arguments, all the same constant.
fn arguments(count: u8) -> Vec<u8> {
    let mut file = Sketch::new();
    let f = file.symbol(6);
    let a = file.symbol(0);
    let row = file.application(a, &[]);
    file.fields(kind::APPLICATION, count, &[f, row, row, row, row, row, row]);
    file.finish()
}

/// An input clause with a count in byte 1 and seven literals.
fn literals(count: u8) -> Vec<u8> {
    let mut file = Sketch::new();
    let a = file.symbol(0);
    let row = file.application(a, &[]);
    file.fields(kind::INPUT, count, &[2 * row + 1; 7]);
    file.finish()
}

/// A clause on the last row, or on the one past it.
fn highest_row(past: u16) -> Vec<u8> {
    let mut file = Sketch::new();
    let p = file.symbol(1);
    let x = file.variable(63);
    let row = file.application(p, &[x]);
    file.clause_of_rows(&[(true, row + past)]);
    file.finish()
}

/// Lengths: whole records and broken ones, and the most records.
fn lengths() -> Vec<Example> {
    let full = full_file();
    let longer = [full.as_slice(), &[0; 16]].concat();
    vec![
        Example::new("length-1", vec![1]),
        Example::new("length-15", vec![0; 15]),
        Example::new("length-16", vec![0; 16]),
        Example::new("length-17", vec![0; 17]),
        Example::new("length-65536", full),
        Example::new("length-65552", longer),
    ]
}

/// 4,096 records that all stand: 1,000 constants, their rows and unit clauses, then 548 times the
/// opposite unit and a refutation.
fn full_file() -> Vec<u8> {
    let mut file = Sketch::new();
    let constants: Vec<u16> = (0..1000).map(|_| file.symbol(0)).collect();
    let rows: Vec<u16> = constants.iter().map(|&symbol| file.application(symbol, &[])).collect();
    let units: Vec<u16> = rows.iter().map(|&row| file.clause_of_rows(&[(true, row)])).collect();
    for (&row, &unit) in rows.iter().zip(&units).take(548) {
        let opposite = file.clause_of_rows(&[(false, row)]);
        file.resolve(unit, 1, opposite, 1);
    }
    file.finish()
}

/// A term with exactly `size` occurrences over a leaf, in few rows: f(t) or g(t,t) over smaller ones.
pub fn sized(file: &mut Sketch, [f, g]: [u16; 2], size: usize, leaf: u16) -> u16 {
    let mut even = Vec::new();
    let mut rest = size;
    while rest > 1 {
        even.push(rest.is_multiple_of(2));
        rest = (rest - 1) / if rest.is_multiple_of(2) { 1 } else { 2 };
    }
    even.iter().rev().fold(leaf, |row, &even| match even {
        true => file.application(f, &[row]),
        false => file.application(g, &[row, row]),
    })
}

/// The work of a step: 16,384 stands, 16,385 does not.
fn works() -> Vec<Example> {
    vec![
        Example::new("work-16384-pairs", work_pairs(16_383, false)),
        Example::new("work-16385-pairs", work_pairs(16_384, false)),
        Example::new("work-16384-clash", work_pairs(16_382, true)),
        Example::new("work-16385-clash", work_pairs(16_383, true)),
        Example::new("work-16384-occurrence-left", work_occurrence(16_382, true)),
        Example::new("work-16385-occurrence-left", work_occurrence(16_383, true)),
        Example::new("work-16384-occurrence-right", work_occurrence(16_382, false)),
        Example::new("work-16385-occurrence-right", work_occurrence(16_383, false)),
        Example::new("work-16384-occurs", work_occurs(16_378)),
        Example::new("work-16385-occurs", work_occurs(16_379)),
        Example::new("work-16384-factor", work_factor(16_382)),
        Example::new("work-16385-factor", work_factor(16_383)),
    ]
}

/// p(t) against p(t), resolved twice: work 1 + size each time. Or p(t,a) against p(t,b), whose outlines clash at
/// the third pair, t being one row: unification alone would do work 2 + size, if it may.
fn work_pairs(size: usize, clash: bool) -> Vec<u8> {
    let mut file = Sketch::new();
    let [p, f, g, a, b] = [1 + u8::from(clash), 1, 2, 0, 0].map(|arity| file.symbol(arity));
    let [a, b] = [a, b].map(|symbol| file.application(symbol, &[]));
    let t = sized(&mut file, [f, g], size, a);
    let [left, right] = [a, b].map(|last| match clash {
        true => file.application(p, &[t, last]),
        false => file.application(p, &[t]),
    });
    let left = file.clause_of_rows(&[(true, left)]);
    let right = file.clause_of_rows(&[(false, right)]);
    file.resolve(left, 1, right, 1);
    file.resolve(right, 1, left, 1);
    file.finish()
}

/// p(x) against p(t), the variable on the left or on the right: work 2 + size.
fn work_occurrence(size: usize, left: bool) -> Vec<u8> {
    let mut file = Sketch::new();
    let [p, f, g, a] = [1, 1, 2, 0].map(|arity| file.symbol(arity));
    let a = file.application(a, &[]);
    let x = file.variable(0);
    let t = sized(&mut file, [f, g], size, a);
    let [open, closed] = [x, t].map(|inner| file.application(p, &[inner]));
    let open = file.clause_of_rows(&[(true, open)]);
    let closed = file.clause_of_rows(&[(false, closed)]);
    match left {
        true => file.resolve(open, 1, closed, 1),
        false => file.resolve(closed, 1, open, 1),
    };
    file.finish()
}

/// p(x,x) against p(y,g(t,y)): work 6 + size until y is met in its own value.
fn work_occurs(size: usize) -> Vec<u8> {
    let mut file = Sketch::new();
    let [p, f, g, a] = [2, 1, 2, 0].map(|arity| file.symbol(arity));
    let a = file.application(a, &[]);
    let [x, y] = [0, 1].map(|number| file.variable(number));
    let t = sized(&mut file, [f, g], size, a);
    let ty = file.application(g, &[t, y]);
    let [left, right] = [[x, x], [y, ty]].map(|pair| file.application(p, &pair));
    let left = file.clause_of_rows(&[(true, left)]);
    let right = file.clause_of_rows(&[(false, right)]);
    file.resolve(left, 1, right, 1);
    file.finish()
}

/// The factor of p(t(x)) and p(t(y)): work 2 + size, since x is bound to y at the first leaf.
fn work_factor(size: usize) -> Vec<u8> {
    let mut file = Sketch::new();
    let [p, f, g] = [1, 1, 2].map(|arity| file.symbol(arity));
    let [left, right] = [0, 1].map(|number| {
        let leaf = file.variable(number);
        let t = sized(&mut file, [f, g], size, leaf);
        file.application(p, &[t])
    });
    let clause = file.clause_of_rows(&[(true, left), (true, right)]);
    file.factor(clause, 1, 2);
    file.finish()
}

/// Bindings: 8,192 may be held.
fn bindings() -> Vec<Example> {
    vec![
        Example::new("bindings-8192", many_bindings(128, &[])),
        Example::new("bindings-8192-then-none-needed", many_bindings(128, &[Step::Ground])),
        Example::new("bindings-8193", many_bindings(128, &[Step::Ground, Step::One])),
        Example::new("bindings-8191-then-one", many_bindings(127, &bindings_left(1, Step::One))),
        Example::new("bindings-8191-then-two", many_bindings(127, &bindings_left(1, Step::Two))),
        Example::new("bindings-8192-then-clash-first", many_bindings(128, &[Step::ClashFirst])),
        Example::new("bindings-8192-then-clash-after", many_bindings(128, &[Step::ClashAfter])),
        Example::new("bindings-8192-then-occurs", many_bindings(128, &[Step::Occurs])),
    ]
}

/// A last step, after many bindings.
#[derive(Clone, Copy)]
enum Step {
    /// No binding needed.
    Ground,
    /// One binding.
    One,
    /// Two bindings.
    Two,
    /// A clash before any binding.
    ClashFirst,
    /// A binding, then a clash.
    ClashAfter,
    /// A variable inside its own value.
    Occurs,
}

/// Steps after 127 × 64 bindings that leave `left` of 8,192, then one more step.
fn bindings_left(left: usize, last: Step) -> Vec<Step> {
    let mut steps = vec![Step::One; 64 - left];
    steps.push(last);
    steps
}

/// Two terms of a symbol with six arguments that hold all 64 variables together.
pub fn all_variables(f: u16) -> [Term; 2] {
    let six =
        |block: u16| apply(f, &(0..6).map(|place| var((6 * block + place).min(63))).collect::<Vec<_>>());
    [0, 6].map(|start| apply(f, &(start..start + 6).map(six).collect::<Vec<_>>()))
}

/// Steps of 64 bindings each: p(s,t) against itself, where s and t hold all variables.
fn steps_of_64(file: &mut Sketch, [p, f, a]: [u16; 3], steps: usize) {
    let atom = app(p, all_variables(f));
    let left = file.clause(&[pos(atom.clone()), pos(app(a, []))]);
    let right = file.clause(&[neg(atom)]);
    for _ in 0..steps {
        file.resolve(left, 1, right, 1);
    }
}

/// Clauses and steps that hold 8,192 bindings but for some.
pub fn hold_bindings(file: &mut Sketch, but_for: usize) {
    let [p, f, q, a] = [2, 6, 1, 0].map(|arity| file.symbol(arity));
    let wanted = BINDINGS.saturating_sub(but_for);
    steps_of_64(file, [p, f, a], wanted / 64);
    let left = file.clause(&[pos(app(q, [var(0)])), pos(app(a, []))]);
    let right = file.clause(&[neg(app(q, [app(a, [])]))]);
    for _ in 0..wanted % 64 {
        file.resolve(left, 1, right, 1);
    }
}

/// Steps of 64 bindings each, then some others.
fn many_bindings(steps: usize, last: &[Step]) -> Vec<u8> {
    let mut file = Sketch::new();
    let symbols = [2, 6, 1, 2, 0, 0].map(|arity| file.symbol(arity));
    let [p, f, .., a, _] = symbols;
    steps_of_64(&mut file, [p, f, a], steps);
    let parents = last_parents(symbols).map(|[left, right]| [file.clause(&left), file.clause(&right)]);
    for &step in last {
        match (step, parents[step as usize]) {
            (Step::Occurs, [clause, _]) => file.factor(clause, 1, 2),
            (_, [left, right]) => file.resolve(left, 1, right, 1),
        };
    }
    file.finish()
}

/// The parents of each last step, in the order of the steps; the last is a factor of the first one.
fn last_parents([_, f, q, r, a, b]: [u16; 6]) -> [[Vec<SignedTerm>; 2]; 6] {
    let [a, b] = [a, b].map(|symbol| move || app(symbol, []));
    let six: Vec<Term> = (0..6).map(var).collect();
    let with_rest = |literal: SignedTerm| vec![literal, pos(a())];
    [
        [with_rest(pos(app(q, [a()]))), vec![neg(app(q, [a()]))]],
        [with_rest(pos(app(q, [var(0)]))), vec![neg(app(q, [a()]))]],
        [with_rest(pos(app(r, [var(0), var(1)]))), vec![neg(app(r, [a(), b()]))]],
        [with_rest(pos(app(r, [a(), var(0)]))), vec![neg(app(r, [b(), a()]))]],
        [with_rest(pos(app(r, [var(0), a()]))), vec![neg(app(r, [a(), b()]))]],
        [vec![pos(app(r, [var(0), var(0)])), pos(app(r, [var(0), apply(f, &six)]))], vec![]],
    ]
}

/// Literals and maximum index of a result.
fn sizes() -> Vec<Example> {
    vec![
        Example::new("result-128-literals", many_literals(3, 5 * 25 + 2 - 5)),
        Example::new("result-129-literals", many_literals(4, 5 * 25 + 2 - 5)),
        Example::new("result-129-literals-and-clash", many_literals(4, 127)),
        Example::new("result-128-literals-and-clash", many_literals(3, 127)),
        Example::new("result-129-literals-and-signs", many_literals(4, 1)),
        Example::new("result-129-literals-and-missing", many_literals(4, 128)),
        Example::new("result-index-4096", case_k(12)),
        Example::new("result-index-4097", index_past(1)),
        Example::new("result-index-8192", case_k(13)),
        Example::new("factor-at-index-4096", index_past(0)),
    ]
}

/// A clause of 127 literals at index 25, of which one is resolved with the -a of a small clause.
/// Literal 122 is +a, the first is -a, the others are +b.
fn many_literals(last: usize, on: u16) -> Vec<u8> {
    let mut file = Sketch::new();
    let [a, b] = [0, 0].map(|arity| app(file.symbol(arity), []));
    let mut seven = vec![neg(a.clone()), pos(a.clone())];
    seven.extend(vec![pos(b.clone()); 5]);
    let one = file.clause(&seven);
    let mut small = vec![neg(a); 1];
    small.extend(vec![neg(b); last - 1]);
    let small = file.clause(&small);
    let at_25 = literals_127(&mut file, one);
    file.resolve(at_25, on, small, 1);
    file.finish()
}

/// The clause of 127 literals, made of one with seven: -a +a +b +b +b +b +b.
pub(super) fn literals_127(file: &mut Sketch, one: u16) -> u16 {
    // Literals of a result: the left one's -a, then its five +b, and so on; +a is second of the last.
    let mut doubled = vec![one];
    for k in 0..4 {
        let literals = 5 * (1 << k) + 2;
        let plus = literals - 5;
        doubled.push(file.resolve(doubled[k], plus as u16, doubled[k], 1));
    }
    let at_24 = file.resolve(doubled[4], 5 * 16 + 2 - 5, doubled[3], 1);
    file.resolve(at_24, 5 * 24 + 2 - 5, one, 1)
}

/// -a +a doubled to index 4,095, then a clause with two more literals at 4,096 and its factor, or
/// the last doubling and one use more.
fn index_past(past: u16) -> Vec<u8> {
    let mut file = Sketch::new();
    let [a, b] = [0, 0].map(|arity| app(file.symbol(arity), []));
    let one = file.clause(&[neg(a.clone()), pos(a.clone())]);
    let last = file.clause(&[neg(a), pos(b.clone()), pos(b)]);
    let sum = index_4095(&mut file, one);
    let full = file.resolve(sum, 2, last, 1);
    if past == 0 {
        file.factor(full, 2, 3);
    } else {
        let full = file.resolve(sum, 2, one, 1);
        file.resolve(full, 2, one, 1);
    }
    file.finish()
}

/// -a +a at index 4,095, of one use after another.
pub(super) fn index_4095(file: &mut Sketch, one: u16) -> u16 {
    let (mut power, mut sum) = (one, one);
    for _ in 1..12 {
        power = file.resolve(power, 2, power, 1);
        sum = file.resolve(sum, 2, power, 1);
    }
    sum
}

/// Occurrences in a literal: 64 are written, more are not.
fn occurrences() -> Vec<Example> {
    vec![
        Example::new("occurrences-64", many_occurrences(63)),
        Example::new("occurrences-65", many_occurrences(64)),
        Example::new("occurrences-200", many_occurrences(199)),
    ]
}

/// A literal p(t) as written and one p(x) with x bound to t, between others.
fn many_occurrences(size: usize) -> Vec<u8> {
    let mut file = Sketch::new();
    let [p, q, f, g, a] = [1, 1, 1, 2, 0].map(|arity| file.symbol(arity));
    let a = file.application(a, &[]);
    let x = file.variable(63);
    let [t, u] = [a, x].map(|leaf| sized(&mut file, [f, g], size, leaf));
    let [pa, pt, pu, px, qt, qx] = [(p, a), (p, t), (p, u), (p, x), (q, t), (q, x)]
        .map(|(symbol, inner)| file.application(symbol, &[inner]));
    let given = file.clause_of_rows(&[(false, pa), (false, pt), (true, pu), (true, pa), (true, qt)]);
    let open = file.clause_of_rows(&[(false, qx), (true, px), (false, px)]);
    file.resolve(given, 5, open, 1);
    file.resolve(open, 1, given, 5);
    file.finish()
}

/// As many symbols, rows and clauses as the records allow.
fn counts() -> Vec<Example> {
    vec![
        Example::new("symbols-4096", many_symbols()),
        Example::new("rows-4095", many_rows(4095).finish()),
        Example::new("clause-on-the-last-of-4094-rows", clause_on_last_row()),
        Example::new("empty-clauses-4096", empty_clauses()),
    ]
}

/// Nothing but symbols, of each arity in turn.
fn many_symbols() -> Vec<u8> {
    let mut file = Sketch::new();
    for number in 0..4096u16 {
        file.symbol((number % 7) as u8);
    }
    file.finish()
}

/// One symbol, and rows: all variables, then the symbol applied to one row after another.
pub fn many_rows(rows: u16) -> Sketch {
    let mut file = Sketch::new();
    let f = file.symbol(1);
    for number in 0..64 {
        file.variable(number);
    }
    for row in 0..rows - 64 {
        file.application(f, &[row]);
    }
    file
}

/// A clause whose literals are on the last row: the largest number that a literal can have.
fn clause_on_last_row() -> Vec<u8> {
    let mut file = many_rows(4094);
    file.clause_of_rows(&[(true, 4093), (false, 4093)]);
    file.finish()
}

/// Nothing but clauses without literals.
fn empty_clauses() -> Vec<u8> {
    let mut file = Sketch::new();
    for _ in 0..4096 {
        file.clause(&[]);
    }
    file.finish()
}
