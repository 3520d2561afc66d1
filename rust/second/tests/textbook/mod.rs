//! Textbook clauses: terms written out, substitutions applied, clauses renamed apart.
#![allow(dead_code)]

use std::collections::{BTreeMap, BTreeSet};

/// A term written out. Variables are any numbers; `Constant` is the extra constant of an instance.
#[derive(Clone, PartialEq, Eq, PartialOrd, Ord, Debug)]
pub enum Term {
    Variable(usize),
    Apply(u16, Vec<Term>),
    Constant,
}

/// A clause written out.
pub type Clause = Vec<(bool, Term)>;

/// Number of occurrences in a term.
pub fn size(term: &Term) -> usize {
    match term {
        Term::Apply(_, arguments) => 1 + arguments.iter().map(size).sum::<usize>(),
        _ => 1,
    }
}

/// A term with every variable replaced by what the function gives.
pub fn replace(term: &Term, by: &impl Fn(usize) -> Term) -> Term {
    match term {
        Term::Variable(variable) => by(*variable),
        Term::Apply(symbol, arguments) => {
            Term::Apply(*symbol, arguments.iter().map(|argument| replace(argument, by)).collect())
        }
        Term::Constant => Term::Constant,
    }
}

/// Does the variable occur in the term?
fn occurs(variable: usize, term: &Term) -> bool {
    match term {
        Term::Variable(other) => *other == variable,
        Term::Apply(_, arguments) => arguments.iter().any(|argument| occurs(variable, argument)),
        Term::Constant => false,
    }
}

/// Puts one term for a variable throughout another term.
fn put(term: &Term, variable: usize, value: &Term) -> Term {
    replace(term, &|other| if other == variable { value.clone() } else { Term::Variable(other) })
}

/// A most general unifier of all equations by the rules of the textbook, as a solved form: equations still
/// to solve are rewritten whole at each binding.
pub fn mgu(equations: Vec<(Term, Term)>) -> Option<Vec<(usize, Term)>> {
    let mut equations = equations;
    let mut solved: Vec<(usize, Term)> = Vec::new();
    while let Some((s, t)) = equations.pop() {
        match (s, t) {
            (s, t) if s == t => {}
            (Term::Variable(x), t) | (t, Term::Variable(x)) => {
                if occurs(x, &t) {
                    return None;
                }
                for (a, b) in &mut equations {
                    (*a, *b) = (put(a, x, &t), put(b, x, &t));
                }
                for (_, value) in &mut solved {
                    *value = put(value, x, &t);
                }
                solved.push((x, t));
            }
            (Term::Apply(f, ss), Term::Apply(g, ts)) => {
                if f != g || ss.len() != ts.len() {
                    return None;
                }
                equations.extend(ss.into_iter().zip(ts));
            }
            _ => return None,
        }
    }
    Some(solved)
}

/// A clause under a substitution in solved form.
fn under(clause: &Clause, solved: &[(usize, Term)]) -> Clause {
    let values: BTreeMap<usize, &Term> = solved.iter().map(|(variable, value)| (*variable, value)).collect();
    let by = |variable: usize| values.get(&variable).map_or(Term::Variable(variable), |&value| value.clone());
    clause.iter().map(|(sign, atom)| (*sign, replace(atom, &by))).collect()
}

/// The clause with its variables numbered from 0 by first appearance: equal results mean variants.
pub fn canonical(clause: &Clause) -> Clause {
    let mut names: BTreeMap<usize, usize> = BTreeMap::new();
    let mut order = Vec::new();
    for (_, atom) in clause {
        variables(atom, &mut order);
    }
    for variable in order {
        let next = names.len();
        names.entry(variable).or_insert(next);
    }
    clause.iter().map(|(sign, atom)| (*sign, replace(atom, &|v| Term::Variable(names[&v])))).collect()
}

/// The variables of a term as met.
pub fn variables(term: &Term, into: &mut Vec<usize>) {
    match term {
        Term::Variable(variable) => into.push(*variable),
        Term::Apply(_, arguments) => arguments.iter().for_each(|argument| variables(argument, into)),
        Term::Constant => {}
    }
}

/// The textbook resolvent on a left literal and rising right ones (from 1), by the rule RIF: (D ∨ C)σ with
/// σ = mgu(A, B1, .., Bn), or none if the atoms have no unifier.
pub fn resolvent(left: &Clause, b: usize, right: &Clause, numbers: &[usize]) -> Option<Clause> {
    let mut used = Vec::new();
    left.iter().for_each(|(_, atom)| variables(atom, &mut used));
    let shift = used.into_iter().max().map_or(0, |most| most + 1);
    let right: Clause = right
        .iter()
        .map(|(sign, atom)| (*sign, replace(atom, &|variable| Term::Variable(variable + shift))))
        .collect();
    let equation = |d: &usize| (left[b - 1].1.clone(), right[d - 1].1.clone());
    let solved = mgu(numbers.iter().map(equation).collect())?;
    let mut rest = left.clone();
    rest.remove(b - 1);
    let others = right.into_iter().zip(1..).filter(|(_, number)| !numbers.contains(number));
    rest.extend(others.map(|(literal, _)| literal));
    Some(canonical(&under(&rest, &solved)))
}

/// The textbook factor that keeps one literal and deletes another, or none.
pub fn factor(clause: &Clause, kept: usize, deleted: usize) -> Option<Clause> {
    let solved = mgu(vec![(clause[kept - 1].1.clone(), clause[deleted - 1].1.clone())])?;
    let mut rest = clause.clone();
    rest.remove(deleted - 1);
    Some(canonical(&under(&rest, &solved)))
}

/// Is no assignment of true and false to the atoms a model of all these variable-free clauses?
pub fn unsatisfiable(clauses: &[Clause]) -> bool {
    let atoms: BTreeSet<&Term> = clauses.iter().flatten().map(|(_, atom)| atom).collect();
    let numbers: BTreeMap<&Term, usize> = atoms.into_iter().zip(0..).collect();
    let coded: Vec<Vec<(bool, usize)>> = clauses
        .iter()
        .map(|clause| clause.iter().map(|(sign, atom)| (*sign, numbers[atom])).collect())
        .collect();
    if numbers.len() <= 12 {
        let masks: Vec<(u32, u32)> = coded.iter().map(|clause| masks(clause)).collect();
        return (0u32..1 << numbers.len())
            .all(|truth| masks.iter().any(|&(yes, no)| truth & yes == 0 && !truth & no == 0));
    }
    refute(coded)
}

/// The atoms that make a clause true when true, and those that do when false.
fn masks(clause: &[(bool, usize)]) -> (u32, u32) {
    clause.iter().fold((0, 0), |(yes, no), &(sign, atom)| match sign {
        true => (yes | 1 << atom, no),
        false => (yes, no | 1 << atom),
    })
}

/// The same by splitting on an atom of a shortest clause.
fn refute(clauses: Vec<Vec<(bool, usize)>>) -> bool {
    let Some(shortest) = clauses.iter().min_by_key(|clause| clause.len()) else { return false };
    let Some(&(sign, atom)) = shortest.first() else { return true };
    let given = |value: bool| -> Vec<Vec<(bool, usize)>> {
        let open = clauses.iter().filter(|clause| !clause.contains(&(value, atom)));
        open.map(|clause| clause.iter().copied().filter(|&(_, other)| other != atom).collect()).collect()
    };
    refute(given(sign)) && refute(given(!sign))
}
