//! Two slow ways to find which clause covers which, from the rows as the file writes them. Both try the literals of the
//! second clause in order for each of the first. One writes terms out; the other, for terms that are too large for that,
//! guesses values and builds the instances, equal terms once.

use std::collections::{BTreeMap, HashMap};

use super::reference::{From, Reference, Row};

/// A term written out. Variables of the second clause are constants of their own.
#[derive(Clone, PartialEq, Debug)]
enum Term {
    Variable(u16),
    Constant(u16),
    Apply(u16, Vec<Term>),
}

/// The ten numbers of the answer, by some way to find the choice.
fn answer(
    state: &Reference,
    c: u16,
    d: u16,
    choice: impl FnOnce(&[(bool, u16)], &[(bool, u16)]) -> Option<Vec<u16>>,
) -> [u16; 10] {
    let mut numbers = [0; 10];
    let (Some(general), Some(special), None) = (input(state, c), input(state, d), state.refusal) else {
        numbers[..2].copy_from_slice(&[2, 15]);
        return numbers;
    };
    if let Some(chosen) = choice(general, special) {
        numbers[0] = 1;
        numbers[3..3 + chosen.len()].copy_from_slice(&chosen);
    }
    numbers
}

/// The literals of an input clause.
fn input(state: &Reference, clause: u16) -> Option<&[(bool, u16)]> {
    match &state.clauses.get(usize::from(clause))?.from {
        From::Input(literals) => Some(literals),
        _ => None,
    }
}

/// Literals chosen so far, and how often one was given up again.
#[derive(Default)]
struct Chosen {
    literals: Vec<u16>,
    given_up: usize,
}

/// Completes a choice, the earliest first, where `fits` extends what is known by one literal.
fn choose<K>(
    general: &[(bool, u16)],
    special: &[(bool, u16)],
    known: &K,
    chosen: &mut Chosen,
    fits: &mut impl FnMut(&K, u16, u16) -> Option<K>,
) -> bool {
    let Some(&(sign, atom)) = general.get(chosen.literals.len()) else { return true };
    for (&(other, target), number) in special.iter().zip(1..) {
        let Some(more) = (sign == other).then(|| fits(known, atom, target)).flatten() else { continue };
        chosen.literals.push(number);
        if choose(general, special, &more, chosen, fits) {
            return true;
        }
        chosen.literals.pop();
        chosen.given_up += 1;
    }
    false
}

/// A row written out in so many occurrences at most, its variables made terms by `variable`.
fn written(state: &Reference, row: u16, variable: &impl Fn(u16) -> Term, room: &mut usize) -> Option<Term> {
    *room = room.checked_sub(1)?;
    match &state.rows[usize::from(row)].1 {
        Row::Variable(number) => Some(variable(*number)),
        Row::Application(symbol, arguments) => {
            let inner = arguments.iter().map(|&argument| written(state, argument, variable, room));
            Some(Term::Apply(*symbol, inner.collect::<Option<Vec<Term>>>()?))
        }
    }
}

/// The plain matching of terms that are written out.
fn matches(term: &Term, target: &Term, values: &mut BTreeMap<u16, Term>) -> bool {
    match (term, target) {
        (Term::Variable(number), _) => values.entry(*number).or_insert_with(|| target.clone()) == target,
        (Term::Apply(f, inner), Term::Apply(g, targets)) => {
            f == g && inner.iter().zip(targets).all(|(term, target)| matches(term, target, values))
        }
        _ => false,
    }
}

/// The answer with all terms written out, or none if they are too large; and how often a literal was given up for it.
pub fn by_trees(state: &Reference, c: u16, d: u16) -> Option<([u16; 10], usize)> {
    let (mut room, mut chosen) = (5000, Chosen::default());
    let mut written = |literals: &[(bool, u16)], variable: fn(u16) -> Term| {
        let terms = literals.iter().map(|&(_, row)| Some((row, written(state, row, &variable, &mut room)?)));
        terms.collect::<Option<HashMap<u16, Term>>>()
    };
    let terms = written(input(state, c).unwrap_or(&[]), Term::Variable)?;
    let targets = written(input(state, d).unwrap_or(&[]), Term::Constant)?;
    let answer = answer(state, c, d, |general, special| {
        let mut fits = |known: &BTreeMap<u16, Term>, atom: u16, target: u16| {
            let mut values = known.clone();
            matches(&terms[&atom], &targets[&target], &mut values).then_some(values)
        };
        let found = choose(general, special, &BTreeMap::new(), &mut chosen, &mut fits);
        found.then(|| chosen.literals.clone())
    });
    Some((answer, chosen.given_up))
}

/// Terms by number: equal ones have the same.
#[derive(Default)]
struct Terms(HashMap<(u32, Vec<usize>), usize>);

impl Terms {
    fn of(&mut self, symbol: u32, arguments: Vec<usize>) -> usize {
        let next = self.0.len();
        *self.0.entry((symbol, arguments)).or_insert(next)
    }

    /// Every row's term, with values for variables; a variable without one is a constant of its own.
    fn of_rows(&mut self, state: &Reference, values: &BTreeMap<u16, usize>) -> Vec<usize> {
        let mut all: Vec<usize> = Vec::new();
        for (_, row, _) in &state.rows {
            let term = match row {
                Row::Variable(number) => match values.get(number) {
                    Some(&value) => value,
                    None => self.of(100_000 + u32::from(*number), Vec::new()),
                },
                Row::Application(symbol, arguments) => {
                    self.of(u32::from(*symbol), arguments.iter().map(|&row| all[usize::from(row)]).collect())
                }
            };
            all.push(term);
        }
        all
    }
}

/// Values for the variables of a row that has not got any, from the first place at which each of its rows is met; these may
/// fit nowhere else.
fn guessed(
    state: &Reference,
    terms: &[usize],
    known: &BTreeMap<u16, usize>,
    (row, image): (u16, u16),
) -> Option<BTreeMap<u16, usize>> {
    let mut values = known.clone();
    let mut met = vec![false; state.rows.len()];
    let mut pairs = vec![(row, image)];
    while let Some((row, image)) = pairs.pop() {
        if std::mem::replace(&mut met[usize::from(row)], true) {
            continue;
        }
        match (&state.rows[usize::from(row)].1, &state.rows[usize::from(image)].1) {
            (Row::Variable(number), _) => drop(values.entry(*number).or_insert(terms[usize::from(image)])),
            (Row::Application(f, inner), Row::Application(g, images)) if f == g => {
                pairs.extend(inner.iter().copied().zip(images.iter().copied()))
            }
            _ => return None,
        }
    }
    Some(values)
}

/// The answer with values guessed and instances built of them.
pub fn by_building(state: &Reference, c: u16, d: u16) -> [u16; 10] {
    let mut terms = Terms::default();
    let targets = terms.of_rows(state, &BTreeMap::new());
    answer(state, c, d, |general, special| {
        let mut chosen = Chosen::default();
        let mut fits = |known: &BTreeMap<u16, usize>, atom: u16, target: u16| {
            let values = guessed(state, &targets, known, (atom, target))?;
            let built = terms.of_rows(state, &values)[usize::from(atom)];
            (built == targets[usize::from(target)]).then_some(values)
        };
        let found = choose(general, special, &BTreeMap::new(), &mut chosen, &mut fits);
        found.then_some(chosen.literals)
    })
}
