//! What clauses by shared structure stand for, written out as terms of the textbook.

use crate::reference::{Clause as Shared, Expr, Reference, Row};
use crate::textbook::{replace, Clause, Term};

/// The value of an expression in a clause, written out; a variable is 4,097 × row + index.
pub fn value(state: &Reference, clause: &Shared, at: Expr, room: &mut usize) -> Option<Term> {
    *room = room.checked_sub(1)?;
    let (row, index) = state.follow(clause, at);
    match &state.taken(row) {
        Row::Variable(_) => Some(Term::Variable(usize::from(row) * 4097 + usize::from(index))),
        Row::Application(symbol, arguments) => {
            let inner: Option<Vec<Term>> =
                arguments.iter().map(|&argument| value(state, clause, (argument, index), room)).collect();
            Some(Term::Apply(*symbol, inner?))
        }
    }
}

/// The instances of the uses of a clause, in their order, with the extra constant for variables without a value; none if
/// there is no room for them.
pub fn instances(state: &Reference, clause: usize, mut room: usize) -> Option<Vec<Clause>> {
    let mut all = Vec::new();
    for (&used, k) in state.uses(clause).iter().zip(1u16..) {
        let mut instance = Vec::new();
        for (sign, (row, _)) in state.literals(used) {
            let atom = value(state, &state.clauses[clause], (row, k), &mut room)?;
            instance.push((sign, replace(&atom, &|_| Term::Constant)));
        }
        all.push(instance);
    }
    Some(all)
}
