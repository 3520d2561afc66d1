//! Examples from the literature, each named after its source.

mod lisp;

use std::iter::once;

use lisp::Rows;
use yestrwyn_second::checker::Checker;
use yestrwyn_second::expression::{Expression, Node};
use yestrwyn_second::unify::Unifier;
use yestrwyn_types::record::{kind, Record};
use yestrwyn_vectors::examples::published;
use yestrwyn_vectors::outcome::{outcome, Outcome};

/// The outcome of a published example by its name.
fn example(name: &str) -> Outcome {
    let all = published();
    let example = all.iter().find(|example| example.name == name).expect("an example of that name");
    outcome(&example.file)
}

/// The line of a clause in the readout, without number and maximum index.
fn literals(outcome: &Outcome, clause: u16) -> String {
    let text = String::from_utf8_lossy(&outcome.readout).into_owned();
    let line = text.lines().nth(usize::from(clause) + 1).expect("a line for the clause");
    line.splitn(3, ' ').nth(2).unwrap_or("").to_string()
}

/// First line of the readout.
fn verdict(outcome: &Outcome) -> String {
    String::from_utf8_lossy(&outcome.readout).lines().next().unwrap_or("").to_string()
}

#[test]
fn boyer_moore_section_2_value_of_a_term_in_a_substitution() {
    let mut rows = Rows::default();
    let mut substitution =
        rows.environment(&[("y", 1, "(f v w)", 1), ("z", 1, "(g x u)", 1), ("u", 1, "(h x)", 1)]);
    let term = rows.at("(P x (f y (g z x)))", 1);
    assert_eq!(rows.value(&mut substitution, term), "(P x1 (f (f v1 w1) (g (g x1 (h x1)) x1)))");
}

#[test]
fn boyer_moore_section_3_value_of_an_expression() {
    let mut rows = Rows::default();
    let mut empty = rows.environment(&[]);
    let at_10 = rows.at("(P x (f y (g z x)))", 10);
    let at_5 = rows.at("(P x (f y (g z x)))", 5);
    assert_eq!(rows.value(&mut empty, at_10), "(P x10 (f y10 (g z10 x10)))");
    assert_eq!(rows.value(&mut empty, at_5), "(P x5 (f y5 (g z5 x5)))");
    let mut environment =
        rows.environment(&[("y", 5, "(f x y)", 4), ("z", 5, "(g x u)", 5), ("u", 5, "(h x)", 5)]);
    assert_eq!(rows.value(&mut environment, at_5), "(P x5 (f (f x4 y4) (g (g x5 (h x5)) x5)))");
}

/// Section 4, which is case L of the case sheet: the printed bindings are given, and both values
/// become (P (g y5) (f y5 (g y5))). The bindings added are others than the printed ones, since
/// both sides are followed before anything is bound.
#[test]
fn boyer_moore_section_4_unification_case_l() {
    let mut rows = Rows::default();
    let mut environment = rows.environment(&[
        ("x", 2, "x", 3),
        ("y", 2, "(f x y)", 4),
        ("y", 4, "x", 3),
        ("z", 7, "(f x y)", 8),
        ("x", 8, "x", 7),
        ("y", 8, "(g y)", 5),
    ]);
    let left = rows.at("(P x y)", 2);
    let right = rows.at("(P (g x) z)", 7);
    assert_eq!(rows.value(&mut environment, left), "(P x3 (f x4 x3))");
    assert_eq!(rows.value(&mut environment, right), "(P (g x7) (f x7 (g y5)))");
    let mut unifier = Unifier::default();
    let mut added = Vec::new();
    let result = unifier.unify(&rows.nodes, &mut environment, &mut added, left, once(right));
    assert_eq!(result, Ok(()));
    assert_eq!(rows.value(&mut environment, left), "(P (g y5) (f y5 (g y5)))");
    assert_eq!(rows.value(&mut environment, right), "(P (g y5) (f y5 (g y5)))");
    // x3 to (g x),7; then x4 to x7 and x7 to y5.
    let (x, y, gx) = (rows.term("x"), rows.term("y"), rows.term("(g x)"));
    let cells: Vec<[u16; 4]> = added
        .iter()
        .map(|binding| [binding.variable.row, binding.variable.index, binding.value.row, binding.value.index])
        .collect();
    assert_eq!(cells, [[x, 3, gx, 7], [x, 4, x, 7], [x, 7, y, 5]]);
    // Pairs: P, x against (g x), y against z, x4 against x7, x3 against y8, x7 against y5.
    // Occurrence tests: (g x) and x; x; y.
    assert_eq!(unifier.work(), 10);
}

#[test]
fn boyer_moore_section_5_incrementing_indices() {
    let mut rows = Rows::default();
    let term = "(Q (f x (a)) (g y z))";
    let mut first = rows.environment(&[("x", 5, "(g y z)", 5), ("z", 5, "(f (a) u)", 6), ("u", 6, "x", 3)]);
    let at_5 = rows.at(term, 5);
    assert_eq!(rows.value(&mut first, at_5), "(Q (f (g y5 (f (a) x3)) (a)) (g y5 (f (a) x3)))");
    let mut second =
        rows.environment(&[("x", 11, "(g y z)", 11), ("z", 11, "(f (a) u)", 12), ("u", 12, "x", 9)]);
    let at_11 = rows.at(term, 11);
    assert_eq!(rows.value(&mut second, at_11), "(Q (f (g y11 (f (a) x9)) (a)) (g y11 (f (a) x9)))");
}

/// Section 6 in the environment that the paper prints: B1 and B2', and the literals of R.
#[test]
fn boyer_moore_section_6_in_the_printed_environment() {
    let mut rows = Rows::default();
    let mut environment = rows.environment(&[
        ("x", 2, "x", 3),
        ("y", 2, "(f x y)", 4),
        ("y", 4, "x", 3),
        ("z", 4, "(f x y)", 2),
        ("z", 7, "(f x y)", 8),
        ("x", 8, "x", 7),
        ("y", 8, "(g y)", 5),
        ("y", 6, "(g z)", 7),
    ]);
    let c1 = [("(Q y y)", 2), ("(P x y)", 2), ("(P x (f y z))", 4)].map(|(term, index)| rows.at(term, index));
    let c2 =
        [("(Q x y)", 5), ("(P (g x) z)", 7), ("(R x (f x y))", 8)].map(|(term, index)| rows.at(term, index));
    let mut values = |rows: &Rows, list: [_; 3]| list.map(|at| rows.value(&mut environment, at));
    assert_eq!(
        values(&rows, c1),
        ["(Q (f x4 x3) (f x4 x3))", "(P x3 (f x4 x3))", "(P x4 (f x3 (f x3 (f x4 x3))))"]
    );
    assert_eq!(values(&rows, c2), ["(Q x5 y5)", "(P (g x7) (f x7 (g y5)))", "(R x7 (f x7 (g y5)))"]);
    let result = Unifier::default().unify(&rows.nodes, &mut environment, &mut Vec::new(), c1[1], once(c2[1]));
    assert_eq!(result, Ok(()));
    let resolvent = [c1[0], c1[2], c2[0], c2[2]].map(|at| rows.value(&mut environment, at));
    assert_eq!(
        resolvent,
        [
            "(Q (f y5 (g y5)) (f y5 (g y5)))",
            "(P y5 (f (g y5) (f (g y5) (f y5 (g y5)))))",
            "(Q x5 y5)",
            "(R y5 (f y5 (g y5)))"
        ]
    );
}

/// Section 6 as a file: symbols s0 P, s1 Q, s2 R, s3 f, s4 g. Where the paper has x3, x4 in C1 the
/// file has v3.1, v4.1, the variables of the linking clause; the resolvent has v3.6 for y5.
#[test]
fn boyer_moore_section_6_as_a_file() {
    let file = example("boyer-moore-section-6");
    assert_eq!(verdict(&file), "open");
    let c1 = "+s1(s3(x4,x3),s3(x4,x3)) +s0(x3,s3(x4,x3)) -s0(x4,s3(x3,s3(x3,s3(x4,x3))))";
    let c2 = "-s1(x1,y1) -s0(s4(x3),s3(x3,s4(y1))) +s2(x3,s3(x3,s4(y1)))";
    let r = "+s1(s3(y5,s4(y5)),s3(y5,s4(y5))) -s0(y5,s3(s4(y5),s3(s4(y5),s3(y5,s4(y5))))) \
             -s1(x5,y5) +s2(y5,s3(y5,s4(y5)))";
    assert_eq!(renamed(&literals(&file, 6)), renamed(c1));
    assert_eq!(renamed(&literals(&file, 13)), renamed(c2));
    assert_eq!(renamed(&literals(&file, 14)), renamed(r));
    assert_eq!(file.used()[2][5 * 14 + 2], 8);
}

/// The text with its variables (a letter v to z and what follows it) numbered by first appearance.
fn renamed(text: &str) -> String {
    let mut names: Vec<String> = Vec::new();
    let mut out = String::new();
    let mut rest = text;
    while let Some(first) = rest.chars().next() {
        let variable = ('v'..='z').contains(&first);
        let end = if variable { rest.find([',', ')', ' ']).unwrap_or(rest.len()) } else { 1 };
        let (token, after) = rest.split_at(end);
        if variable {
            let place = names.iter().position(|name| name == token).unwrap_or_else(|| {
                names.push(token.to_string());
                names.len() - 1
            });
            out += &format!("?{place}");
        } else {
            out += token;
        }
        rest = after;
    }
    out
}

/// Section 7, figure 1, as far as the text gives it: T is (Q x y), third literal of C2. Symbols s1 Q,
/// s3 f; v1 is y. All values are printed in the paper, with these very indices.
#[test]
fn boyer_moore_section_7_figure_1() {
    let file = example("boyer-moore-section-7-figure-1");
    assert_eq!(verdict(&file), "open");
    let literal = |clause: u16, number: usize| {
        literals(&file, clause).split(' ').nth(number - 1).unwrap_or("").to_string()
    };
    assert_eq!(literal(1, 3), "+s1(v0.1,v1.1)"); // T,1 in C2: (Q x1 y1)
    assert_eq!(literal(3, 3), "+s1(s3(v1.1),v1.2)"); // T,2 in C4: (Q (f y1) y2)
    assert_eq!(literal(4, 3), "+s1(s3(v1.2),s3(v1.1))"); // T,3 in C5: (Q (f y2) (f y1))
    assert_eq!(literal(5, 2), "+s1(s3(s3(v1.2)),v1.2)"); // T,2 in C6: (Q (f (f y2)) y2)
    assert_eq!(literal(6, 2), "+s1(s3(v1.2),s3(v1.1))"); // T,3 in C7: (Q (f y2) (f y1))
    assert_eq!(literal(6, 4), "+s1(s3(s3(s3(v1.2))),s3(v1.2))"); // T,5: (Q (f (f (f y2))) (f y2))
                                                                 // The binding (x,2 . (f y),1) at C4: x is row 0, y row 1, (f y) row 2.
    let clauses = file.used()[2];
    let (first, count) = (usize::from(clauses[5 * 3 + 3]), usize::from(clauses[5 * 3 + 4]));
    let own = &file.used()[3][4 * first..4 * (first + count)];
    assert!(own.chunks(4).any(|cells| cells == [0, 2, 2, 1]), "{own:?}");
}

/// Section 7: "the reader should calculate the value of y,4 in the binding environment C7. It is found to
/// be (f(f y2)) after using bindings found at C6, C4, C7, and C5." Row 1 is y.
#[test]
fn boyer_moore_section_7_y_4_in_c7() {
    let mut checker = checker("boyer-moore-section-7-figure-1");
    assert_eq!(value(&mut checker, 6, Expression { row: 1, index: 4 }), "s3(s3(v1.2))");
}

/// A checker that has read a published example.
fn checker(name: &str) -> Checker {
    let all = published();
    let example = all.iter().find(|example| example.name == name).expect("an example of that name");
    let mut checker = Checker::new();
    for record in example.file.chunks(16) {
        checker.record(record.try_into().expect("sixteen bytes")).expect("the record stands");
    }
    checker
}

/// The value of an expression in a clause, as a readout writes it.
fn value(checker: &mut Checker, clause: u16, at: Expression) -> String {
    let (nodes, environment) = checker.load(clause);
    written(nodes, &mut |at| environment.follow(nodes, at).expression(), at)
}

/// An expression written out, with every variable replaced by what the function gives.
fn written(nodes: &[Node], follow: &mut dyn FnMut(Expression) -> Expression, at: Expression) -> String {
    let Expression { row, index } = follow(at);
    match &nodes[usize::from(row)] {
        Node::Variable(number) => format!("v{number}.{index}"),
        Node::Application { symbol, count, arguments } => {
            let arguments = &arguments[..usize::from(*count)];
            let mut inner = |row: &u16| written(nodes, follow, Expression { row: *row, index });
            let inner: Vec<String> = arguments.iter().map(&mut inner).collect();
            if inner.is_empty() {
                format!("s{symbol}")
            } else {
                format!("s{symbol}({})", inner.join(","))
            }
        }
    }
}

#[test]
fn robinson_system_1_is_unified() {
    let file = example("robinson-system-1");
    assert_eq!(verdict(&file), "open");
    // s1 f, s2 g, s3 h; a and x become one variable, here v3 = a; v6 = d, v5 = c.
    let value = "f(x,g(x,f(d,c)))";
    let expected = format!("p({value},h({value},f(d,c)))");
    let named =
        [("s0", "p"), ("s1", "f"), ("s2", "g"), ("s3", "h"), ("v3.1", "x"), ("v6.1", "d"), ("v5.1", "c")];
    let ours = named.iter().fold(literals(&file, 1), |text, (from, to)| text.replace(from, to));
    assert_eq!(ours, format!("+{expected}"));
    assert_eq!(file.answer.bindings, 4);
}

/// The paper's first substitution, {p(r(a))/a, p(a)/x, g(a,b)/y}, puts all at once: what is put stands at
/// an index of its own. f(x,g(x,y)) becomes f(p(a),g(p(a),g(a,b))).
#[test]
fn robinson_value_of_a_term_under_a_substitution() {
    let mut rows = Rows::default();
    let mut theta =
        rows.environment(&[("a", 1, "(p (r a))", 2), ("x", 1, "(p a)", 2), ("y", 1, "(g a b)", 2)]);
    let term = rows.at("(f x (g x y))", 1);
    assert_eq!(rows.value(&mut theta, term), "(f (p a2) (g (p a2) (g a2 b2)))");
}

/// Figures 1, 2 and 3 as printed: for each row the expression before (figure 3, `normalexpression`), the
/// row that is put for it (figure 2, `term`), its class (figure 2, `equals`), and the expression after
/// (figure 3, `expression`).
const FIGURES: [(&str, Option<usize>, usize, &str); 13] = [
    ("f(x,g(x,y))", None, 8, "f(x,g(x,f(d,c)))"),
    ("x", None, 9, "x"),
    ("g(x,y)", None, 10, "g(x,f(d,c))"),
    ("y", Some(11), 4, "f(d,c)"),
    ("z", Some(1), 8, "f(x,g(x,f(d,c)))"),
    ("h(z,y)", None, 7, "h(f(x,g(x,f(d,c))),f(d,c))"),
    ("h(f(a,b),f(d,c))", None, 7, "h(f(x,g(x,f(d,c))),f(d,c))"),
    ("f(a,b)", None, 8, "f(x,g(x,f(d,c)))"),
    ("a", Some(2), 9, "x"),
    ("b", Some(3), 10, "g(x,f(d,c))"),
    ("f(d,c)", None, 4, "f(d,c)"),
    ("d", None, 12, "d"),
    ("c", None, 13, "c"),
];

/// A written term with the names of the paper: s1 f, s2 g, s3 h, and v0 to v6 for x, y, z, a, b, c, d.
fn robinson_names(text: String) -> String {
    let symbols = [("s1", "f"), ("s2", "g"), ("s3", "h")];
    let variables = ["x", "y", "z", "a", "b", "c", "d"];
    let text = symbols.iter().fold(text, |text, (from, to)| text.replace(from, to));
    let names = variables.iter().enumerate();
    names.fold(text, |text, (number, name)| text.replace(&format!("v{number}.1"), name))
}

/// With the second literal kept, so that it is on the left, the step binds just what figure 2 prints.
#[test]
fn robinson_figures_2_and_3() {
    let mut checker = checker("robinson-system-1");
    checker.record(&Record::new(kind::FACTOR, 0, &[0, 2, 1]).to_bytes()).expect("the factor stands");
    let nodes = checker.nodes().to_vec();
    let normal = |row: u16| {
        let text = written(&nodes, &mut |at| at, Expression { row, index: 1 });
        robinson_names(text)
    };
    let place = |row: u16| FIGURES.iter().position(|figure| figure.0 == normal(row)).map(|place| place + 1);
    // Figure 2, subst and term.
    let first = usize::from(checker.clauses()[2].first_binding);
    let mut bound: Vec<_> = checker.bindings()[first..]
        .iter()
        .map(|own| (place(own.variable.row), place(own.value.row)))
        .collect();
    bound.sort();
    let printed = FIGURES.iter().zip(1..).filter(|(figure, _)| figure.1.is_some());
    assert_eq!(bound, printed.map(|(figure, row)| (Some(row), figure.1)).collect::<Vec<_>>());
    // Figure 3, and figure 2, equals: the same class exactly where the expressions are the same.
    for (text, _, class, after) in FIGURES {
        let row = (0..nodes.len() as u16).find(|&row| normal(row) == text).expect("a row of figure 1");
        let ours = value(&mut checker, 2, Expression { row, index: 1 });
        assert_eq!(robinson_names(ours), after, "expression of {text}");
        assert!(FIGURES.iter().all(|other| (other.2 == class) == (other.3 == after)), "class of {text}");
    }
}

#[test]
fn robinson_system_2_has_no_unifier() {
    assert_eq!(verdict(&example("robinson-system-2")), "refused 11 at 7");
}

#[test]
fn robinson_figure_4_is_refuted() {
    let file = example("robinson-figure-4");
    assert_eq!(verdict(&file), "accepted 8");
    // The goals after the first step: P(x,y,k(t)), P(y,t,v), P(x,v,k(t)) are all to be shown.
    assert_eq!(renamed(&literals(&file, 5)), renamed("-s0(x,y,s3(w)) -s0(y,w,z) -s0(x,z,s3(w))"));
    assert_eq!(file.used()[2][5 * 8 + 2], 5);
}

#[test]
fn resolution_rules() {
    assert_eq!(literals(&example("rules-resolution"), 2), "+s1(s4(v0.2,v0.2)) +s2(v0.2)");
    assert_eq!(literals(&example("rules-factorization"), 1), "+s1(s2(v1.1)) +s0(s2(v1.1),s2(v1.1))");
    assert_eq!(literals(&example("rules-factorization-negative"), 1), "+s1(s2(v1.1)) -s0(s2(v1.1),s2(v1.1))");
}

#[test]
fn unification_rules() {
    let unified = |name: &str| literals(&example(name), 1);
    assert_eq!(unified("rules-unify-equal"), "+s0(s1(v0.1))");
    assert_eq!(unified("rules-unify-decompose"), "+s0(s2(s1(v2.1),s1(v2.1)))");
    assert_eq!(unified("rules-unify-substitute"), "+s0(s1(v1.1))");
    assert_eq!(unified("rules-unify-orient"), "+s0(s1(s3))");
    assert!(verdict(&example("rules-unify-clash")).starts_with("refused 10 "));
    assert!(verdict(&example("rules-unify-occurs")).starts_with("refused 11 "));
}

#[test]
fn henschen_naqvi_examples_1_and_2_unify() {
    let file = example("outlines-1-and-2");
    assert_eq!(verdict(&file), "open");
    // x of the second becomes g(x), its y becomes a, and y of the first meets z.
    assert_eq!(literals(&file, 2), "+s1(v2.2)");
}

#[test]
fn kowalski_fallible_greek() {
    let down = example("kowalski-fallible-greek-top-down");
    assert_eq!(verdict(&down), "accepted 7");
    // Human(u), Greek(u) wanted; then Human(Socrates): the answer is u = Socrates, symbol 4.
    assert_eq!(literals(&down, 5), "-s1(v0.2) -s0(v0.2)");
    assert_eq!(literals(&down, 6), "-s0(s4)");
    let up = example("kowalski-fallible-greek-bottom-up");
    assert_eq!(verdict(&up), "accepted 7");
    assert_eq!(literals(&up, 5), "+s2(s4)");
}

#[test]
fn kowalski_three_is_a_number() {
    let down = example("kowalski-three-is-a-number-top-down");
    assert_eq!(verdict(&down), "accepted 6");
    assert_eq!(
        [3, 4, 5].map(|clause| literals(&down, clause)),
        ["-s0(s1(s1(s2)))", "-s0(s1(s2))", "-s0(s2)"]
    );
    let up = example("kowalski-three-is-a-number-bottom-up");
    assert_eq!(verdict(&up), "accepted 6");
    assert_eq!(
        [3, 4, 5].map(|clause| literals(&up, clause)),
        ["+s0(s1(s2))", "+s0(s1(s1(s2)))", "+s0(s1(s1(s1(s2))))"]
    );
}

#[test]
fn kowalski_middle_out_reasoning() {
    // Ancestor(x,y) <- Ancestor(x,w), Ancestor(w,z), Ancestor(z,y); the two new conditions come last.
    let file = example("kowalski-middle-out-ancestor");
    assert_eq!(renamed(&literals(&file, 1)), renamed("+s0(x,y) -s0(z,y) -s0(x,w) -s0(w,z)"));
}

#[test]
fn kowalski_propositional_examples() {
    for name in [
        "kowalski-p-and-not-q-top-down",
        "kowalski-p-and-not-q-bottom-up",
        "kowalski-p-or-not-p",
        "kowalski-two-cases",
        "kowalski-p-implies-p",
        "kowalski-implication-chain",
    ] {
        assert!(verdict(&example(name)).starts_with("accepted "), "{name}");
    }
    // The subgoals of p & ¬q: p (s6), and ¬q (s5 of s7).
    assert_eq!(literals(&example("kowalski-p-and-not-q-top-down"), 17), "-s0(s6) -s0(s5(s7))");
    // Two cases, p and q.
    assert_eq!(literals(&example("kowalski-two-cases"), 18), "+s0(s6) +s0(s7)");
    // p ⊃ p: the assertion p and the subgoal p.
    let file = example("kowalski-p-implies-p");
    assert_eq!([15, 16].map(|clause| literals(&file, clause)), ["+s0(s6)", "-s0(s6)"]);
}

#[test]
fn kowalski_barber_paradox_needs_factoring() {
    let file = example("kowalski-barber-paradox");
    assert_eq!(verdict(&file), "accepted 7");
    assert_eq!(renamed(&literals(&file, 3)), renamed("+s0(y,y) -s1(y)"));
    assert_eq!(renamed(&literals(&file, 4)), renamed("-s0(y,y) -s1(y)"));
    // The printed units, Shave(☺,☺) ← and ← Shave(☺,☺), where ☺ is symbol 2.
    assert_eq!([5, 6].map(|clause| literals(&file, clause)), ["+s0(s2,s2)", "-s0(s2,s2)"]);
    let without = example("kowalski-s1-s2-without-factoring");
    assert_eq!(verdict(&without), "open");
    assert!((2..5).all(|clause| literals(&without, clause).split(' ').count() == 2));
    assert_eq!(verdict(&example("kowalski-s1-s2-with-factoring")), "accepted 4");
}
