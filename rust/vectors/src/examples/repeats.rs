//! Files in which rows are repeated: case J drawn further.

use yestrwyn_types::record::kind::{APPLICATION, INPUT, VARIABLE};

use super::{cases, outlines, Example};
use crate::repeating::rows_twice;
use crate::sketch::Sketch;

/// Small files, and cases whose rows are all written twice.
pub fn cases() -> Vec<Example> {
    vec![
        Example::new("J-in-one-clause", in_one_clause()),
        Example::new("J-through-arguments", through_arguments()),
        Example::new("J-as-literal", as_literal()),
        Example::new("J-in-a-binding", in_a_binding()),
        Example::new("J-below-a-binding", below_a_binding()),
        Example::new("J-variable-and-constant", variable_and_constant()),
        Example::new("J-six-arguments", six_arguments()),
        Example::new("J-two-chains", two_chains(100)),
        Example::new("J-no-rows-shared", case_a_unshared()),
        Example::new("J-case-A-twice", rows_twice(&cases::case_a()).file),
        Example::new("J-case-F-twice", rows_twice(&cases::case_f()).file),
    ]
}

/// Writes an application, whether it is there already or not.
fn app(file: &mut Sketch, symbol: u16, arguments: &[u16]) -> u16 {
    file.fields(APPLICATION, arguments.len() as u8, &[&[symbol], arguments].concat())
}

/// Writes a variable, whether it is there already or not.
fn var(file: &mut Sketch, number: u16) -> u16 {
    file.fields(VARIABLE, 0, &[number])
}

/// +p(x,x) +p(x,x), where x and the atom are written twice, the one in another order: a factor of equal rows.
fn in_one_clause() -> Vec<u8> {
    let mut file = Sketch::new();
    let p = file.symbol(2);
    let [x, again] = [0, 0].map(|number| var(&mut file, number));
    let atoms = [[x, again], [again, x]].map(|arguments| app(&mut file, p, &arguments));
    let clause = file.clause_of_rows(&atoms.map(|atom| (true, atom)));
    file.factor(clause, 1, 2);
    file.finish()
}

/// f(x) of the second x before f of the first, and g of them in three ways: two rows of f and three of g are one
/// each. All three are atoms of a clause, of which two are factored away.
fn through_arguments() -> Vec<u8> {
    let mut file = Sketch::new();
    let [f, g] = [1, 2].map(|arity| file.symbol(arity));
    let [x, again] = [0, 0].map(|number| var(&mut file, number));
    let [second, first] = [again, x].map(|inner| app(&mut file, f, &[inner]));
    let atoms = [[second, first], [first, second], [first, first]].map(|inner| app(&mut file, g, &inner));
    let clause = file.clause_of_rows(&atoms.map(|atom| (true, atom)));
    let factor = file.factor(clause, 3, 1);
    file.factor(factor, 1, 2);
    file.finish()
}

/// +p(a) and -p(a) on different rows, and -p(a) -p(a) on two more: resolved to the empty clause.
fn as_literal() -> Vec<u8> {
    let mut file = Sketch::new();
    let [p, a] = [1, 0].map(|arity| file.symbol(arity));
    let atoms = [0; 4].map(|_| {
        let a = app(&mut file, a, &[]);
        app(&mut file, p, &[a])
    });
    let fact = file.clause_of_rows(&[(true, atoms[1])]);
    let goal = file.clause_of_rows(&[(false, atoms[3]), (false, atoms[2])]);
    let half = file.resolve(fact, 1, goal, 2);
    file.resolve(half, 1, fact, 1);
    file.finish()
}

/// +p(x) +p(x) on the second x against -p(a) of the second a, either way round: bindings name the first of each.
fn in_a_binding() -> Vec<u8> {
    let mut file = Sketch::new();
    let [p, a] = [1, 0].map(|arity| file.symbol(arity));
    let [_, x] = [0, 0].map(|number| var(&mut file, number));
    let [_, a] = [a, a].map(|symbol| app(&mut file, symbol, &[]));
    let [px, pa] = [x, a].map(|inner| app(&mut file, p, &[inner]));
    let left = file.clause_of_rows(&[(true, px), (true, px)]);
    let right = file.clause_of_rows(&[(false, pa)]);
    file.resolve(left, 1, right, 1);
    file.resolve(right, 1, left, 2);
    file.finish()
}

/// +p(x,y) against -p(f(z),f(z)) of different rows of x, y, z and f(z): y is bound to the f(z) that x is bound to.
/// Then the factor of +r(f(x)) +r(f(x)) with an x of each row, which is no occurrence of x in its own value.
fn below_a_binding() -> Vec<u8> {
    let mut file = Sketch::new();
    let [p, f, r] = [2, 1, 1].map(|arity| file.symbol(arity));
    let [_, x, y, z, again, last] = [0, 0, 1, 2, 2, 0].map(|number| var(&mut file, number));
    let [fz, fagain, fx, flast] = [z, again, x, last].map(|inner| app(&mut file, f, &[inner]));
    let left = app(&mut file, p, &[x, y]);
    let right = app(&mut file, p, &[fagain, fz]);
    let [one, other] = [fx, flast].map(|inner| app(&mut file, r, &[inner]));
    let left = file.clause_of_rows(&[(true, left), (true, one), (true, other)]);
    let right = file.clause_of_rows(&[(false, right)]);
    let derived = file.resolve(left, 1, right, 1);
    file.factor(derived, 2, 1);
    file.factor(left, 2, 3);
    file.finish()
}

/// v0 and s0: records that differ in their kind only are two terms. v0 is bound to s0.
fn variable_and_constant() -> Vec<u8> {
    let mut file = Sketch::new();
    let [a, p] = [0, 2].map(|arity| file.symbol(arity));
    let [x, a] = [var(&mut file, 0), app(&mut file, a, &[])];
    let atoms = [[x, a], [a, a], [a, x]].map(|arguments| app(&mut file, p, &arguments));
    let clause = file.clause_of_rows(&atoms.map(|atom| (true, atom)));
    file.factor(clause, 1, 2);
    file.factor(clause, 2, 3);
    file.finish()
}

/// p of six constants a, and with b in each place in turn: seven terms, each written twice. The clause has the
/// second of each; the second clause has the first, with other signs, and is resolved with it on the last.
fn six_arguments() -> Vec<u8> {
    let mut file = Sketch::new();
    let p = file.symbol(6);
    let [a, b] = [0, 0].map(|arity| file.symbol(arity));
    let [a, b] = [a, b].map(|symbol| app(&mut file, symbol, &[]));
    let mut terms = [[a; 6]; 7];
    for (place, term) in terms.iter_mut().skip(1).enumerate() {
        term[place] = b;
    }
    let [first, second] = [0, 1].map(|_| terms.map(|arguments| app(&mut file, p, &arguments)));
    let left = file.clause_of_rows(&second.map(|atom| (true, atom)));
    let right = file.clause_of_rows(&first.map(|atom| (false, atom)));
    file.resolve(left, 7, right, 7);
    file.finish()
}

/// +p(t,x) +p(t,a), where t is a tree of some depth, d(..,..) of two equal ones, with rows of its own in each:
/// to compare the trees place by place would take 2^depth pairs.
fn two_chains(depth: usize) -> Vec<u8> {
    let mut file = Sketch::new();
    let [p, d, a] = [2, 2, 0].map(|arity| file.symbol(arity));
    let atoms = [true, false].map(|open| {
        let leaf = app(&mut file, a, &[]);
        let tree = (0..depth).fold(leaf, |row, _| app(&mut file, d, &[row, row]));
        let last = if open { var(&mut file, 0) } else { leaf };
        app(&mut file, p, &[tree, last])
    });
    let clause = file.clause_of_rows(&atoms.map(|atom| (true, atom)));
    file.factor(clause, 1, 2);
    file.factor(clause, 2, 1);
    file.finish()
}

/// Case A, with every term written where it is used.
fn case_a_unshared() -> Vec<u8> {
    let mut file = Sketch::new();
    let [p, f, a] = [1, 1, 0].map(|arity| file.symbol(arity));
    let constant = app(&mut file, a, &[]);
    let fact = app(&mut file, p, &[constant]);
    let fact = file.clause_of_rows(&[(true, fact)]);
    let [x, y] = [0, 0].map(|number| var(&mut file, number));
    let from = app(&mut file, p, &[x]);
    let next = app(&mut file, f, &[y]);
    let to = app(&mut file, p, &[next]);
    let rule = file.clause_of_rows(&[(false, from), (true, to)]);
    let constant = app(&mut file, a, &[]);
    let next = app(&mut file, f, &[constant]);
    let goal = app(&mut file, p, &[next]);
    let goal = file.clause_of_rows(&[(false, goal)]);
    let derived = file.resolve(fact, 1, rule, 1);
    file.resolve(derived, 1, goal, 1);
    file.finish()
}

/// Repeated rows at the edge of limits: 4,096 records of which 4,000 are one row, and outlines in which equal
/// rows are equal only as terms.
pub fn edges() -> Vec<Example> {
    let mut all = vec![Example::new("rows-repeated-4000-times", one_row(4000))];
    let names = ["occurs-resolve", "occurs-factor", "bindings-resolve", "bindings-factor"];
    let wanted = |name: &str| names.iter().any(|ending| name.ends_with(&format!("-pairs-{ending}")));
    let twice = |example: Example| {
        Example::new(&format!("{}-rows-twice", example.name), rows_twice(&example.file).file)
    };
    all.extend(outlines::edges().into_iter().filter(|example| wanted(&example.name)).map(twice));
    all
}

/// One row so many times, and a clause +f(x) -f(x) on its first and last number; then steps to the last record.
pub fn one_row(times: u16) -> Vec<u8> {
    let mut file = Sketch::new();
    let f = file.symbol(1);
    let x = var(&mut file, 0);
    let first = app(&mut file, f, &[x]);
    let last = (1..times).fold(first, |_, _| app(&mut file, f, &[x]));
    let clause = file.clause_of_rows(&[(true, last), (false, first)]);
    while file.records() < 4096 {
        file.resolve(clause, 1, clause, 2);
    }
    file.finish()
}

/// Records after a repeated row that are refused with the reason in their name, and that stand.
pub fn refusals() -> Vec<Example> {
    // Rows: 0 x, 1 x, 2 f(x), 3 f(x).
    let with = |name: &str, kind: u8, count: u8, fields: &[u16]| {
        let mut file = Sketch::new();
        let f = file.symbol(1);
        let [x, again] = [0, 0].map(|number| var(&mut file, number));
        app(&mut file, f, &[again]);
        app(&mut file, f, &[x]);
        file.fields(kind, count, fields);
        file.symbol(1);
        Example::new(name, file.finish())
    };
    vec![
        with("7-clause-on-a-repeated-variable", INPUT, 2, &[4, 3]),
        with("5-before-7-on-a-repeated-variable", INPUT, 2, &[3, 8]),
        with("5-clause-past-repeated-rows", INPUT, 1, &[8]),
        with("5-application-past-repeated-rows", APPLICATION, 1, &[0, 4]),
        with("4-repeated-variable-and-unused", VARIABLE, 0, &[0, 1]),
        with("4-repeated-application-and-unused", APPLICATION, 1, &[0, 0, 1]),
        with("5-repeated-application-of-another-arity", APPLICATION, 0, &[0]),
        with("stands-clause-on-the-last-repeated-row", INPUT, 2, &[7, 4]),
        with("stands-repeated-row-of-repeated-rows", APPLICATION, 1, &[0, 1]),
    ]
}
