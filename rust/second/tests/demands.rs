//! What the check promises of derived and empty clauses, against the textbook: resolvents and
//! factors under a most general unifier, refusals only without one, and instances without a model.

mod instances;
mod reference;
mod textbook;

use instances::{instances, value};
use reference::{From, Reference};
use textbook::{canonical, factor, resolvent, size, unsatisfiable, Clause, Term};
use yestrwyn_vectors::examples::{cases, days, published};
use yestrwyn_vectors::outcome::outcome_on;
use yestrwyn_vectors::several_file;
use yestrwyn_vectors::{clashing_file, clashing_several_file, dated_file, random_file, repeating_file};

/// Terms larger than this are not written out.
const LARGEST: usize = 3000;

/// The literals of a clause by shared structure, written out.
fn shared(state: &Reference, clause: usize) -> Option<Clause> {
    let mut room = LARGEST;
    let literals = state.literals(clause).into_iter();
    literals
        .map(|(sign, atom)| Some((sign, value(state, &state.clauses[clause], atom, &mut room)?)))
        .collect()
}

/// Every clause is what the textbook derives from its parents, up to renaming of variables.
fn clauses_are_textbook(name: &str, state: &Reference) -> usize {
    let mut compared = 0;
    let mut book: Vec<Option<Clause>> = Vec::new();
    for (number, clause) in state.clauses.iter().enumerate() {
        let expected = match &clause.from {
            From::Input(_) => shared(state, number),
            From::Resolve(a, b, c, numbers) => match (&book[*a], &book[*c]) {
                (Some(left), Some(right)) => Some(resolvent(left, *b, right, numbers).expect(name)),
                _ => None,
            },
            From::Factor(a, b, c) => book[*a].as_ref().map(|parent| factor(parent, *b, *c).expect(name)),
        };
        let expected =
            expected.filter(|literals| literals.iter().map(|(_, atom)| size(atom)).sum::<usize>() < LARGEST);
        let expected = expected.map(|literals| canonical(&literals));
        if let (Some(expected), Some(ours)) = (&expected, shared(state, number)) {
            assert_eq!(&canonical(&ours), expected, "clause {number} of {name}");
            compared += 1;
        }
        book.push(expected);
    }
    compared
}

/// A step refused with 10 or 11 has no unifier by the textbook.
fn refusal_is_textbook(name: &str, state: &Reference, file: &[u8]) -> bool {
    let Some((10 | 11, record)) = state.refusal else { return false };
    let bytes = &file[16 * usize::from(record)..];
    let field = |number: usize| usize::from(bytes[2 + 2 * number]) + 256 * usize::from(bytes[3 + 2 * number]);
    let (Some(left), Some(right)) =
        (shared(state, field(0)), shared(state, if bytes[0] == 6 { field(0) } else { field(2) }))
    else {
        return false;
    };
    let numbers: Vec<usize> = (3..3 + usize::from(bytes[1].max(1))).map(field).collect();
    let result = match bytes[0] {
        6 => factor(&left, field(1), field(2)),
        _ => resolvent(&canonical(&left), field(1), &canonical(&right), &numbers),
    };
    assert_eq!(result, None, "refused step of {name}");
    true
}

/// The instances of the uses of the accepted clause are of clauses in force, are ground and have no model.
fn instances_have_no_model(day: u16, name: &str, state: &Reference, maximum: u16) -> bool {
    let Some(empty) = state.accepted(day) else { return false };
    let uses = state.uses(empty);
    assert_eq!(uses.len(), usize::from(maximum), "uses of {name}");
    assert!(uses.iter().all(|&used| state.in_force(used, day)), "uses of {name} on day {day}");
    let Some(instances) = instances(state, empty, 20 * LARGEST) else { return false };
    assert!(unsatisfiable(&instances), "instances of {name}");
    true
}

/// All of these for one file on day 0; says how much could be compared.
fn hold(name: &str, file: &[u8]) -> (usize, bool, bool) {
    hold_on(0, name, file)
}

/// The same on a day.
fn hold_on(day: u16, name: &str, file: &[u8]) -> (usize, bool, bool) {
    let state = Reference::check(file);
    let ours = outcome_on(day, file);
    assert_eq!(ours.answer.numbers(), state.answer_on(day), "answer of {name}");
    let compared = clauses_are_textbook(name, &state);
    let refused = refusal_is_textbook(name, &state, file);
    let maximum = state.accepted(day).map_or(0, |empty| ours.cells.clauses[5 * empty + 2]);
    (compared, refused, instances_have_no_model(day, name, &state, maximum))
}

#[test]
fn cases_and_published_examples() {
    for example in cases::examples().into_iter().chain(published()) {
        if !example.name.starts_with('K') {
            hold(&example.name, &example.file);
        }
    }
}

#[test]
fn random_files() {
    let (mut compared, mut refused, mut refuted) = (0, 0, 0);
    for seed in 0..2000 {
        let (clauses, refusal, model) = hold(&format!("random {seed}"), &random_file(seed));
        compared += clauses;
        refused += usize::from(refusal);
        refuted += usize::from(model);
    }
    // Enough of each that the comparison means something.
    assert!(compared > 20_000, "{compared} clauses compared");
    assert!(refused > 200, "{refused} refusals compared");
    assert!(refuted > 400, "{refuted} refutations tested");
}

#[test]
fn clashing_files() {
    let refused = (0..600).filter(|&seed| hold(&format!("clashing {seed}"), &clashing_file(seed)).1).count();
    // Many atoms of these files are too large to be written out.
    assert!(refused > 150, "{refused} refusals compared");
}

#[test]
fn files_with_repeated_rows() {
    let mut compared = 0;
    for seed in 0..600 {
        compared += hold(&format!("repeating {seed}"), &repeating_file(seed)).0;
    }
    assert!(compared > 6000, "{compared} clauses compared");
}

#[test]
fn files_with_steps_on_several_literals() {
    let (mut compared, mut refused, mut refuted) = (0, 0, 0);
    for seed in 0..1500 {
        let (clauses, refusal, model) = hold(&format!("several {seed}"), &several_file(seed));
        compared += clauses;
        refused += usize::from(refusal);
        refuted += usize::from(model);
    }
    for seed in 0..600 {
        let (_, refusal, _) = hold(&format!("clashing several {seed}"), &clashing_several_file(seed));
        refused += usize::from(refusal);
    }
    assert!(compared > 15_000, "{compared} clauses compared");
    assert!(refused > 250, "{refused} refusals compared");
    assert!(refuted > 250, "{refuted} refutations tested");
}

#[test]
fn files_with_days() {
    // A count of three hundred steps is too much for the textbook.
    for example in days::examples().iter().filter(|example| !example.name.contains("steps-on")) {
        if !example.name.starts_with("case-K") {
            hold_on(example.day, &example.name, &example.file);
        }
    }
    let refuted = |seed: &u64| {
        let (day, file) = dated_file(*seed);
        hold_on(day, &format!("dated {seed}"), &file).2
    };
    let count = (0..2500).filter(refuted).count();
    assert!(count > 300, "{count} refutations tested");
}

#[test]
fn the_test_for_models_is_right() {
    let atom = |n: u16| Term::Apply(n, Vec::new());
    let lit = |n: i32| (n > 0, atom(n.unsigned_abs() as u16));
    let clauses = |list: &[&[i32]]| -> Vec<Clause> {
        list.iter().map(|clause| clause.iter().map(|&n| lit(n)).collect()).collect()
    };
    assert!(unsatisfiable(&clauses(&[&[1, 2], &[1, -2], &[-1, 2], &[-1, -2]])));
    assert!(!unsatisfiable(&clauses(&[&[1, 2], &[1, -2], &[-1, 2]])));
    assert!(!unsatisfiable(&[]));
    assert!(unsatisfiable(&clauses(&[&[]])));
    let chain: Vec<Vec<i32>> = (1..20).map(|n| vec![-n, n + 1]).chain([vec![1], vec![-20]]).collect();
    let chain: Vec<&[i32]> = chain.iter().map(|clause| clause.as_slice()).collect();
    assert!(unsatisfiable(&clauses(&chain)));
    assert!(!unsatisfiable(&clauses(&chain[1..])));
}
