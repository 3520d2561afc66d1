//! Which clause covers which: by hand, on deep terms, refused, and on random files against two slow ways to find it.

mod covering;
mod reference;

use covering::{by_building, by_trees};
use reference::{From, Reference};
use yestrwyn_second::checker::Checker;
use yestrwyn_second::cover::compare;
use yestrwyn_second::{check_into, covers, covers_into};
use yestrwyn_types::limits::RECORD_BYTES;
use yestrwyn_types::{Covering, Outcome, Tables, LENGTHS};
use yestrwyn_vectors::random::SplitMix64;
use yestrwyn_vectors::sketch::{app, neg, pos, var, SignedTerm, Sketch, Term};
use yestrwyn_vectors::{covering_file, damage, random_file, repeating_file, several_file};

/// Symbols of all files made by hand: p and q of one argument, e of two, s of one, a and b.
const P: u16 = 0;
const Q: u16 = 1;
const E: u16 = 2;
const S: u16 = 3;
const A: u16 = 4;
const B: u16 = 5;

/// A file of these symbols that has no clause yet.
fn symbols() -> Sketch {
    let mut file = Sketch::new();
    for arity in [1, 1, 2, 1, 0, 0] {
        file.symbol(arity);
    }
    file
}

fn p(term: Term) -> Term {
    app(P, [term])
}

fn q(term: Term) -> Term {
    app(Q, [term])
}

fn e(one: Term, other: Term) -> Term {
    app(E, [one, other])
}

fn s(term: Term) -> Term {
    app(S, [term])
}

/// One of the constants; those past b are nested terms.
fn constant(number: u16) -> Term {
    let (first, around) = (number % 2, number / 2);
    (0..around).fold(app(A + first, []), |term, _| s(term))
}

/// The literals chosen with a yes, none with a no; where the first clause has none, an empty list.
fn chosen(general: &[SignedTerm], special: &[SignedTerm]) -> Option<Vec<u16>> {
    let mut file = symbols();
    let [c, d] = [general, special].map(|literals| file.clause(literals));
    let file = file.finish();
    let covering = covers(&file, c, d);
    // Both slow ways say the same.
    let state = Reference::check(&file);
    assert_eq!(by_trees(&state, c, d).map(|(numbers, _)| numbers), Some(covering.numbers()));
    assert_eq!(by_building(&state, c, d), covering.numbers());
    let (chosen, after) = covering.literals.split_at(general.len());
    assert!(after.iter().all(|&number| number == 0));
    match covering.outcome {
        Outcome::Yes => Some(chosen.to_vec()),
        Outcome::No => {
            assert_eq!(chosen, vec![0; general.len()]);
            None
        }
        Outcome::Refused { reason, record } => panic!("refused with {reason} at {record}"),
    }
}

#[test]
fn the_general_curfew_covers_that_of_one_airfield() {
    // At night an airfield is closed; and so is one of them.
    let [night, airfield] = [neg(p(var(1))), pos(e(var(0), var(1)))];
    let general = [night, airfield];
    let special = [neg(p(var(0))), pos(e(app(A, []), var(0)))];
    assert_eq!(chosen(&general, &special), Some(vec![1, 2]));
    assert_eq!(chosen(&special, &general), None);
    // A condition more makes a rule weaker, wherever it stands.
    let weaker = [pos(q(var(3))), special[1].clone(), special[0].clone()];
    assert_eq!(chosen(&general, &weaker), Some(vec![3, 2]));
    assert_eq!(chosen(&special, &weaker), Some(vec![3, 2]));
    assert_eq!(chosen(&weaker, &special), None);
}

#[test]
fn a_clause_covers_itself_and_its_renaming() {
    let clause = |x: u16, y: u16| [pos(e(var(x), s(var(y)))), neg(e(var(y), var(x))), pos(q(var(x)))];
    let identity = Some(vec![1, 2, 3]);
    assert_eq!(chosen(&clause(0, 1), &clause(0, 1)), identity);
    assert_eq!(chosen(&clause(0, 1), &clause(1, 0)), identity);
    assert_eq!(chosen(&clause(0, 1), &clause(63, 7)), identity);
    // With one variable for both it is an instance, and covers no more.
    assert_eq!(chosen(&clause(0, 1), &clause(5, 5)), identity);
    assert_eq!(chosen(&clause(5, 5), &clause(0, 1)), None);
}

#[test]
fn the_earliest_choice_need_not_be_the_identity() {
    let two = [pos(p(var(0))), pos(p(var(1)))];
    assert_eq!(chosen(&two, &two), Some(vec![1, 1]));
    let later = [pos(p(app(A, []))), pos(q(var(0))), pos(p(var(1))), pos(q(var(0)))];
    assert_eq!(chosen(&later, &later), Some(vec![1, 2, 1, 2]));
    // The same clause by one number.
    let mut file = symbols();
    let clause = file.clause(&later);
    assert_eq!(covers(&file.finish(), clause, clause), Covering::yes([1, 2, 1, 2, 0, 0, 0]));
}

#[test]
fn two_literals_may_become_one() {
    let general = [pos(e(var(0), var(1))), pos(e(var(1), var(0)))];
    assert_eq!(chosen(&general, &[pos(e(app(A, []), app(A, [])))]), Some(vec![1, 1]));
    assert_eq!(chosen(&general, &[pos(e(app(A, []), app(B, [])))]), None);
    let seven = [0, 1, 2, 3, 4, 5, 6].map(|number| pos(p(var(number))));
    assert_eq!(chosen(&seven, &[neg(p(var(0))), pos(p(var(9)))]), Some(vec![2; 7]));
    assert_eq!(chosen(&[pos(p(var(9)))], &seven), Some(vec![1]));
}

#[test]
fn a_choice_may_fail_at_the_last_literal_only() {
    let edge = |from: u16, to: u16| pos(e(constant(from), constant(to)));
    let ring: Vec<SignedTerm> = [(0, 1), (1, 2), (2, 0)].map(|(x, y)| pos(e(var(x), var(y)))).to_vec();
    // Along 0, 1, 2, 3 the first literals go far; the ring is 1, 2, 3.
    let edges = [edge(0, 1), edge(1, 2), edge(2, 3), edge(3, 1)];
    assert_eq!(chosen(&ring, &edges), Some(vec![2, 3, 4]));
    assert_eq!(chosen(&ring, &edges[..3]), None);
    // A path of six and then a mark, which only the last of seven edges leads to.
    let path: Vec<SignedTerm> = (0..6).map(|at| pos(e(var(at), var(at + 1)))).collect();
    let marked = [path, vec![pos(q(var(6)))]].concat();
    let loops = [edge(0, 0), edge(0, 1), edge(1, 2), edge(2, 3), edge(3, 4), pos(q(constant(4)))];
    assert_eq!(chosen(&marked, &loops), Some(vec![1, 1, 2, 3, 4, 5, 6]));
    let elsewhere = [&loops[..5], &[pos(q(constant(6)))]].concat();
    assert_eq!(chosen(&marked, &elsewhere), None);
}

#[test]
fn signs_count() {
    assert_eq!(chosen(&[pos(p(var(0)))], &[neg(p(var(0)))]), None);
    let general = [pos(p(var(0))), neg(p(var(1)))];
    assert_eq!(chosen(&general, &[neg(p(app(A, []))), pos(p(app(B, [])))]), Some(vec![2, 1]));
    let one = [pos(p(var(0))), neg(p(var(0)))];
    assert_eq!(chosen(&one, &[neg(p(app(A, []))), pos(p(app(B, [])))]), None);
    let third = [neg(p(app(A, []))), pos(p(app(B, []))), neg(p(app(B, [])))];
    assert_eq!(chosen(&one, &third), Some(vec![2, 3]));
}

#[test]
fn a_clause_without_literals_covers_every_clause() {
    assert_eq!(chosen(&[], &[pos(p(var(0)))]), Some(vec![]));
    assert_eq!(chosen(&[], &[]), Some(vec![]));
    assert_eq!(chosen(&[pos(p(var(0)))], &[]), None);
}

#[test]
fn variables_of_the_second_clause_are_constants_of_their_own() {
    let yes = |general, special| chosen(&[pos(general)], &[pos(special)]).is_some();
    // One number means two variables: nothing occurs in itself.
    assert!(yes(p(var(0)), p(s(var(0)))));
    assert!(yes(e(var(0), var(1)), e(var(1), s(var(0)))));
    assert!(yes(e(var(0), s(var(0))), e(s(var(0)), s(s(var(0))))));
    assert!(!yes(e(var(0), s(var(0))), e(s(var(0)), var(0))));
    assert!(!yes(p(s(var(0))), p(var(0))));
    // Two variables of the second clause are never the same, and none is a name.
    assert!(!yes(e(var(0), var(0)), e(var(0), var(1))));
    assert!(yes(e(var(0), var(1)), e(var(0), var(0))));
    assert!(!yes(p(app(A, [])), p(var(0))));
    assert!(!yes(p(app(A, [])), p(app(B, []))));
    // Neither covers the other.
    let [one, other] = [e(app(A, []), var(0)), e(var(0), app(B, []))];
    assert!(!yes(one.clone(), other.clone()) && !yes(other, one));
}

/// A row doubled so many times: it has 2 to that power leaves.
fn doubled(file: &mut Sketch, bottom: u16, times: usize) -> u16 {
    (0..times).fold(bottom, |row, _| file.application(E, &[row, row]))
}

/// The same, every row written again.
fn doubled_anew(file: &mut Sketch, bottom: u16, times: usize) -> u16 {
    (0..times).fold(bottom, |row, _| file.fields(3, 2, &[E, row, row]))
}

#[test]
fn deep_terms_are_compared_by_their_rows() {
    for times in [0, 1, 30, 780] {
        let mut file = symbols();
        let [x, y, a, b] = [var(0), var(1), app(A, []), app(B, [])].map(|term| file.term(&term));
        let bottoms = [[x, x], [x, y], [a, a], [a, b]].map(|both| file.application(E, &both));
        let mut clauses = bottoms.map(|bottom| {
            let row = doubled(&mut file, bottom, times);
            let row = file.application(P, &[row]);
            file.clause_of_rows(&[(true, row)])
        });
        // The last but one once more, from rows that repeat all of its rows.
        let again = file.fields(3, 0, &[A]);
        let again = file.fields(3, 2, &[E, again, a]);
        let row = doubled_anew(&mut file, again, times);
        let row = file.application(P, &[row]);
        let repeated = file.clause_of_rows(&[(true, row)]);
        let file = file.finish();
        let yes = |c: u16, d: u16| covers(&file, c, d) == Covering::yes([1, 0, 0, 0, 0, 0, 0]);
        let expected = [
            [true, false, true, false],
            [true, true, true, true],
            [false, false, true, false],
            [false, false, false, true],
        ];
        for (c, row) in clauses.into_iter().zip(expected) {
            assert_eq!(clauses.map(|d| yes(c, d)), row, "clause {c}, {times} times");
        }
        clauses[2] = repeated;
        for (c, row) in clauses.into_iter().zip(expected) {
            assert_eq!(clauses.map(|d| yes(c, d)), row, "clause {c}, repeated, {times} times");
        }
    }
}

#[test]
fn two_deep_arguments_must_be_one_term() {
    let mut file = symbols();
    let [x, a, b] = [var(0), app(A, []), app(B, [])].map(|term| file.term(&term));
    let bottoms = [[a, a], [a, b]].map(|both| file.application(E, &both));
    let [one, other] = bottoms.map(|bottom| doubled(&mut file, bottom, 1300));
    let third = doubled_anew(&mut file, bottoms[0], 1300);
    let mut clause = |left: u16, right: u16| {
        let row = file.application(E, &[left, right]);
        file.clause_of_rows(&[(false, row)])
    };
    let both = clause(x, x);
    let [same, differing, repeated] = [(one, one), (one, other), (one, third)].map(|(l, r)| clause(l, r));
    let file = file.finish();
    assert!(covers(&file, both, same).is_yes());
    assert!(!covers(&file, both, differing).is_yes());
    assert!(covers(&file, both, repeated).is_yes());
    assert!(covers(&file, same, repeated).is_yes() && covers(&file, repeated, same).is_yes());
}

/// Seven literals on deep terms on both sides, whose matches all fail at the bottom or all hold.
#[test]
fn all_literals_deep() {
    for (leaf, yes) in [(var(1), false), (s(var(1)), true)] {
        let mut file = symbols();
        let bottoms = [s(var(0)), leaf].map(|leaf| file.term(&leaf));
        let clauses = bottoms.map(|bottom| {
            let top = doubled(&mut file, bottom, 1900);
            let rows = (0..7).map(|_| (true, file.fields(3, 1, &[P, top]))).collect::<Vec<_>>();
            file.clause_of_rows(&rows)
        });
        let covering = covers(&file.finish(), clauses[0], clauses[1]);
        assert_eq!(covering, if yes { Covering::yes([1; 7]) } else { Covering::no() });
    }
}

/// The refusal in numbers.
const REFUSED: [u16; 10] = [2, 15, 0, 0, 0, 0, 0, 0, 0, 0];

#[test]
fn only_input_clauses_are_compared() {
    let mut file = symbols();
    let [fact, rule] = [vec![pos(p(var(0)))], vec![neg(p(var(0))), pos(q(var(0)))]].map(|c| file.clause(&c));
    let derived = file.resolve(fact, 1, rule, 1);
    let later = file.clause(&[pos(q(var(0)))]);
    let file = file.finish();
    for (c, d) in [(derived, fact), (fact, derived), (derived, derived), (later, derived)] {
        assert_eq!(covers(&file, c, d).numbers(), REFUSED, "a derived clause, {c} and {d}");
    }
    for past in [later + 1, 4096, u16::MAX] {
        for (c, d) in [(past, fact), (fact, past), (past, past)] {
            assert_eq!(covers(&file, c, d).numbers(), REFUSED, "no such clause, {c} and {d}");
        }
    }
    assert!(covers(&file, later, later).is_yes());
    assert_eq!(covers(&[], 0, 0).numbers(), REFUSED);
}

#[test]
fn the_file_must_stand() {
    let mut file = symbols();
    let clause = file.clause(&[pos(p(var(0)))]);
    let good = file.clone().finish();
    assert!(covers(&good, clause, clause).is_yes());
    // A refused record after the clauses, of several reasons; a length that does not fit.
    let records = [(0, [0; 3]), (1, [1, 0, 0]), (4, [40, 0, 0]), (5, [0, 1, 0]), (6, [0, 1, 1])];
    for (kind, given) in records {
        let mut bad = file.clone();
        bad.fields(kind, u8::from(kind == 4), &given);
        assert_eq!(covers(&bad.finish(), clause, clause).numbers(), REFUSED, "kind {kind}");
    }
    let long = [good.as_slice(), &[0; 15]].concat();
    assert_eq!(covers(&long, clause, clause).numbers(), REFUSED);
    assert_eq!(covers(&vec![1; 65_552], clause, clause).numbers(), REFUSED);
    // An accepted file stands: the empty clause alters nothing.
    let empty = file.clause(&[]);
    let accepted = file.finish();
    assert!(covers(&accepted, empty, clause).is_yes() && !covers(&accepted, clause, empty).is_yes());
}

/// Four tables of marks, each longer than it must be by so many cells, or shorter.
fn marked(more: [isize; 4]) -> [Vec<u16>; 4] {
    let mut lengths = LENGTHS.iter().zip(more);
    [0; 4].map(|_| {
        let (&length, more) = lengths.next().expect("four lengths");
        vec![0xabcd; length.saturating_add_signed(more)]
    })
}

fn lend([symbols, rows, clauses, bindings]: &mut [Vec<u16>; 4]) -> Tables<'_> {
    Tables { symbols, rows, clauses, bindings }
}

#[test]
fn tables_are_left_as_by_the_check() {
    for seed in 0..300 {
        let file = if seed % 3 == 0 { damage(&covering_file(seed), seed) } else { covering_file(seed) };
        let short = (seed % 6 < 4).then_some((seed % 5) as usize);
        let more = [0, 1, 2, 3].map(|table| if Some(table) == short { -1 } else { table as isize });
        let [mut ours, mut theirs] = [marked(more), marked(more)];
        let covering = covers_into(&file, 0, 1, &mut lend(&mut ours));
        let answer = check_into(0, &file, &mut lend(&mut theirs));
        assert!(ours == theirs, "seed {seed}");
        if matches!(answer.numbers(), [2, ..]) {
            assert_eq!(covering.numbers(), REFUSED, "seed {seed}");
        } else {
            assert_eq!(covering, covers(&file, 0, 1), "seed {seed}");
        }
        if short.is_some_and(|short| short < 4) {
            assert!(matches!(answer.numbers(), [2, 1 | 2, ..]) && ours == marked(more), "seed {seed}");
        }
    }
}

/// What the comparison of random files has met.
#[derive(Default, Debug)]
struct Met {
    yes: usize,
    no: usize,
    refused: usize,
    /// A yes for which some literal had to be given up for a later one, and a no after that.
    given_up: [usize; 2],
    /// Yes and no with terms that are too large to be written out.
    large: [usize; 2],
}

/// Compares every two clauses of a file with both slow ways: the first input clauses, of a refused file one, a derived
/// clause, and the number past the last.
fn agrees(met: &mut Met, name: &str, file: &[u8]) {
    let state = Reference::check(file);
    let input = |clause: &usize| matches!(state.clauses[*clause].from, From::Input(_));
    let (inputs, derived): (Vec<usize>, Vec<usize>) = (0..state.clauses.len()).partition(input);
    let others = derived.into_iter().take(1).chain([state.clauses.len()]);
    let some = if state.refusal.is_none() { 8 } else { 1 };
    let clauses: Vec<u16> = inputs.into_iter().take(some).chain(others).map(|clause| clause as u16).collect();
    for (&c, &d) in clauses.iter().flat_map(|c| clauses.iter().map(move |d| (c, d))) {
        let ours = covers(file, c, d);
        assert_eq!(ours.numbers(), by_building(&state, c, d), "{c} and {d} of {name}");
        let trees = by_trees(&state, c, d);
        let number = match ours.outcome {
            Outcome::Yes => &mut met.yes,
            Outcome::No => &mut met.no,
            Outcome::Refused { .. } => &mut met.refused,
        };
        *number += 1;
        let which = usize::from(!ours.is_yes());
        match trees {
            Some((numbers, given_up)) => {
                assert_eq!(ours.numbers(), numbers, "{c} and {d} of {name}");
                met.given_up[which] += usize::from(given_up > 0);
            }
            None => met.large[which] += 1,
        }
    }
}

#[test]
fn files_made_for_comparing() {
    let mut met = Met::default();
    for seed in 0..400 {
        agrees(&mut met, &format!("covering {seed}"), &covering_file(seed));
    }
    assert!(met.yes > 3000 && met.no > 5000 && met.refused > 2000, "{met:?}");
    assert!(met.given_up[0] > 100 && met.given_up[1] > 1000, "{met:?}");
    assert!(met.large[0] > 300 && met.large[1] > 1000, "{met:?}");
}

#[test]
fn other_random_files() {
    let mut met = Met::default();
    for seed in 0..300 {
        agrees(&mut met, &format!("random {seed}"), &random_file(seed));
        agrees(&mut met, &format!("several {seed}"), &several_file(seed));
        agrees(&mut met, &format!("repeating {seed}"), &repeating_file(seed));
        agrees(&mut met, &format!("damaged {seed}"), &damage(&covering_file(seed), seed));
    }
    assert!(met.yes > 6000 && met.no > 10_000 && met.refused > 10_000, "{met:?}");
}

#[test]
fn any_bytes() {
    let mut random = SplitMix64::new(5);
    for _ in 0..500 {
        let bytes: Vec<u8> = (0..random.below(400)).map(|_| random.below(5) as u8).collect();
        let covering = covers(&bytes, random.below(3) as u16, random.below(3) as u16);
        assert_eq!(Covering::from_numbers(covering.numbers()), covering);
    }
}

#[test]
fn one_check_serves_many_comparisons() {
    for seed in 0..100 {
        let file = covering_file(seed);
        let mut checker = Checker::new();
        let mut records = file.chunks_exact(RECORD_BYTES);
        if !records.all(|bytes| checker.record(bytes.try_into().expect("sixteen bytes")).is_ok()) {
            continue;
        }
        for (c, d) in (0..9).flat_map(|c| (0..9).map(move |d| (c, d))) {
            assert_eq!(compare(&checker, c, d), covers(&file, c, d), "{c} and {d} of seed {seed}");
        }
    }
}
