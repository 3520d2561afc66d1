//! The rules that an accepted clause uses, and which of them a rulebook has.

mod checked;

use checked::{vectors, Checked};
use yestrwyn_derivations::{rules, used_rules, Names, Rulebook, SymbolsDiffer};
use yestrwyn_vectors::examples::Example;
use yestrwyn_vectors::sketch::{app, var, Sketch, Term};

/// A file of input clauses over symbols of arities 2, 1 and 0.
fn rulebook(clauses: &[Vec<(bool, Term)>]) -> Checked {
    let mut file = Sketch::new();
    for arity in [2, 1, 0] {
        file.symbol(arity);
    }
    for clause in clauses {
        file.clause(clause);
    }
    Checked::new(&Example::new("rulebook", file.finish()))
}

/// p(x, y), q(x) and f(x), the last as a term, and the constant.
fn p(x: Term, y: Term) -> Term {
    app(0, [x, y])
}

fn q(x: Term) -> Term {
    app(1, [x])
}

fn c() -> Term {
    app(2, [])
}

/// Which clauses of the second file are the same as clause 0 of the first.
fn same(one: Vec<(bool, Term)>, others: &[Vec<(bool, Term)>]) -> Vec<u16> {
    let (one, others) = (rulebook(&[one]), rulebook(others));
    let (model, rulebook) = (one.model(), others.model());
    Rulebook::compare(&model, &rulebook).expect("the same symbols").same(0).to_vec()
}

#[test]
fn order_and_names_of_variables_play_no_part() {
    let ours = || vec![(false, p(var(0), var(1))), (false, p(var(1), var(2))), (true, p(var(0), var(2)))];
    let found = same(
        ours(),
        &[
            vec![(false, p(var(5), var(6))), (false, p(var(6), var(7))), (true, p(var(5), var(7)))],
            vec![(true, p(var(9), var(3))), (false, p(var(4), var(3))), (false, p(var(9), var(4)))],
            vec![(false, p(var(0), var(1))), (false, p(var(1), var(2))), (true, p(var(2), var(0)))],
            vec![(false, p(var(0), var(1))), (false, p(var(1), var(1))), (true, p(var(0), var(1)))],
            vec![(false, p(var(0), var(1))), (false, p(var(1), var(2)))],
            vec![(false, p(var(0), var(1))), (true, p(var(1), var(2))), (true, p(var(0), var(2)))],
        ],
    );
    assert_eq!(found, [0, 1]);
}

#[test]
fn terms_inside_and_repeated_literals_count() {
    let twice = |x: u16, y: u16| vec![(true, q(p(var(x), q(var(y))))), (true, q(p(var(x), q(var(y)))))];
    let once = vec![(true, q(p(var(0), q(var(1)))))];
    assert_eq!(same(twice(0, 1), &[twice(3, 2), once, twice(3, 3)]), [0]);
    assert_eq!(same(vec![(true, q(c()))], &[vec![(true, q(var(0)))], vec![(true, q(c()))]]), [1]);
}

#[test]
fn seven_literals_that_differ_in_nothing_but_their_variables() {
    // Seven literals in a ring, and seven in a ring of three and one of four.
    let ring = |from: u16, length: u16| {
        (0..length)
            .map(move |at| (true, p(var(from + at), var(from + (at + 1) % length))))
            .collect::<Vec<_>>()
    };
    let whole = ring(0, 7);
    let mut turned = ring(10, 7);
    turned.rotate_left(3);
    turned.swap(1, 5);
    let parts = [ring(0, 3), ring(3, 4)].concat();
    assert_eq!(same(whole, &[turned, parts]), [0]);
    let apart: Vec<(bool, Term)> = (0..7).map(|at| (true, q(var(at)))).collect();
    assert_eq!(same(apart.clone(), &[apart.into_iter().rev().collect()]), [0]);
}

#[test]
fn symbols_must_agree() {
    let mut other = Sketch::new();
    other.symbol(2);
    other.symbol(2);
    let other = Checked::new(&Example::new("other", other.finish()));
    let ours = rulebook(&[]);
    let (model, others) = (ours.model(), other.model());
    assert_eq!(Rulebook::compare(&model, &others).err(), Some(SymbolsDiffer { symbol: 1 }));
}

#[test]
fn the_declined_quote_against_its_rulebook() {
    let (declined, book) = (Checked::stored("declined", 21_000), Checked::stored("rulebook", 0));
    let (model, book) = (declined.model(), book.model());
    let names = Names::read("s0 arrives\ns1 closed\ns2 night\ns3 Lakeside\n").expect("names");
    let rulebook = Rulebook::compare(&model, &book).expect("the same symbols");
    let text = rules(&model, &names, 10, Some(&rulebook));
    let expected = "\
clause 10: 7 uses of 5 input clauses

clause 0, record 9, used twice, always in force
  -arrives(v0.1,v1.1) -closed(v0.1,v1.1)
  in the rulebook: clause 0, always in force
";
    assert!(text.starts_with(expected), "{text}");
    assert!(text.ends_with("\n2 of 5 are in the rulebook; not clauses 3, 4, 5\n"), "{text}");
}

#[test]
fn a_file_has_its_own_rules_and_uses_are_counted() {
    let names = Names::none();
    for checked in vectors() {
        let model = checked.model();
        let Some(accepted) = model.accepted() else { continue };
        let rulebook = Rulebook::compare(&model, &model).expect("the same symbols");
        let used = used_rules(&model, accepted);
        assert!(
            used.iter().all(|rule| rulebook.same(rule.clause).contains(&rule.clause)),
            "{}",
            checked.name
        );
        let text = rules(&model, &names, accepted, Some(&rulebook));
        assert!(!text.contains("not in the rulebook"), "{}", checked.name);
    }
}
