//! The instances behind an accepted clause are those of the format's words, and no assignment makes them all true.

mod checked;
#[path = "../../second/tests/instances/mod.rs"]
mod plain;
#[path = "../../second/tests/reference/mod.rs"]
mod reference;
#[path = "../../second/tests/textbook/mod.rs"]
mod textbook;

use checked::{vectors, Checked};
use reference::Reference;
use textbook::{Clause, Term as Written};
use yestrwyn_derivations::{Head, Instances, Term, Terms};
use yestrwyn_vectors::examples::Example;
use yestrwyn_vectors::sketch::{app, neg, pos, var, Sketch};
use yestrwyn_vectors::{dated_file, random_file, repeating_file, several_file};

/// Terms larger than this are not written out.
const ROOM: usize = 60_000;

/// A term written out.
fn written(terms: &Terms, term: Term) -> Written {
    match terms.parts(term) {
        (Head::Extra, _) => Written::Constant,
        (Head::Symbol(symbol), arguments) => {
            Written::Apply(symbol, arguments.iter().map(|&argument| written(terms, argument)).collect())
        }
    }
}

/// Is a file accepted, and are its instances those that the reference writes out, where there is room for them?
fn compared(checked: &Checked) -> bool {
    let model = checked.model();
    let Some(accepted) = model.accepted() else { return false };
    let Instances { terms, list } = Instances::of(&model, accepted);
    assert_eq!(list.len(), usize::from(model.clauses()[usize::from(accepted)].max_index));
    let Some(expected) = plain::instances(&Reference::check(&checked.file), accepted.into(), ROOM) else {
        return false;
    };
    let literal = |&(positive, atom): &(bool, Term)| (positive, written(&terms, atom));
    let ours: Vec<Clause> =
        list.iter().map(|instance| instance.literals.iter().map(literal).collect()).collect();
    assert!(ours == expected, "instances of {}", checked.name);
    true
}

#[test]
fn stored_files() {
    // The reference takes long for derivations of thousands of steps.
    let short = |checked: &&Checked| checked.file.len() < 16 * 600 && !checked.name.contains("doublings");
    let count = move || vectors().iter().filter(short).filter(|checked| compared(checked)).count();
    // It recurses as deep as terms nest.
    let walk = std::thread::Builder::new().stack_size(1 << 29).spawn(count).expect("a thread");
    let count = walk.join().expect("agreement");
    assert!(count > 200, "{count} compared");
}

#[test]
fn random_files() {
    let mut count = 0;
    for seed in 0..1500 {
        let files = [random_file(seed), repeating_file(seed), several_file(seed)];
        let (day, dated) = dated_file(seed);
        let dated = Example::on(day, &format!("dated {seed}"), dated);
        let plain = files.map(|file| Example::new(&format!("random {seed}"), file));
        count += plain.iter().chain([&dated]).filter(|example| compared(&Checked::new(example))).count();
    }
    assert!(count > 400, "{count} compared");
}

#[test]
fn a_large_term_at_many_values_takes_its_different_parts_alone() {
    // The rule -q(x) +q(f(x)) +r(g^n(x)), with its third literal gone, doubled six times: x is another one in each of the 64 uses.
    let mut file = Sketch::new();
    let [q, f, g, r, c] = [1, 1, 1, 1, 0].map(|arity| file.symbol(arity));
    let large = (0..3000).fold(var(0), |term, _| app(g, [term]));
    let rule = file.clause(&[neg(app(q, [var(0)])), pos(app(q, [app(f, [var(0)])])), pos(app(r, [large]))]);
    let none = file.clause(&[neg(app(r, [var(0)]))]);
    let first = file.resolve(rule, 3, none, 1);
    let doubled = (0..6).fold(first, |clause, _| file.resolve(clause, 2, clause, 1));
    let start = file.clause(&[pos(app(q, [app(c, [])]))]);
    let end = file.clause(&[neg(app(q, [var(0)]))]);
    let begun = file.resolve(start, 1, doubled, 1);
    file.resolve(begun, 1, end, 1);
    let checked = Checked::new(&Example::new("large", file.finish()));
    let model = checked.model();
    let Instances { terms, list } = Instances::of(&model, model.accepted().expect("accepted"));
    assert_eq!(list.len(), 2 * 64 + 2);
    // For each value of x 3,000 terms and an atom of r; c and 64 times f of it, and an atom of q for each.
    assert_eq!(terms.count(), 64 * 3001 + 2 * 65);
}

#[test]
fn terms_are_equal_exactly_if_their_numbers_are() {
    let mut terms = Terms::new();
    let chain = |terms: &mut Terms, symbol: u16| {
        let start = terms.apply(Head::Symbol(0), &[]);
        (0..5000).fold(start, |term, _| terms.apply(Head::Symbol(symbol), &[term]))
    };
    let [first, second, other] = [1, 1, 2].map(|symbol| chain(&mut terms, symbol));
    assert!(first == second && first != other);
    assert_eq!(terms.count(), 10_001);
    assert_eq!(terms.apply(Head::Extra, &[]), terms.apply(Head::Extra, &[]));
    assert_eq!(terms.parts(first).0, Head::Symbol(1));
}
