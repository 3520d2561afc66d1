//! Clauses that stand, as derivations: a clause has its parents and the bindings of its own step, and
//! shares everything else with them.

use std::collections::HashMap;

/// A row read at an index.
#[derive(Clone, Copy, PartialEq, Eq, Hash, Debug)]
pub(crate) struct At {
    pub row: u16,
    pub index: u16,
}

/// A variable number at an index.
pub(crate) type Variable = (u16, u16);

/// A sign and an atom.
#[derive(Clone, Copy, PartialEq, Eq, Debug)]
pub(crate) struct Occurrence {
    pub positive: bool,
    pub atom: At,
}

/// Where a clause comes from; parents by number.
#[derive(Clone, Copy, Debug)]
pub(crate) enum Origin {
    Input,
    Resolve { left: u16, right: u16 },
    Factor { parent: u16 },
}

/// A clause that stands.
#[derive(Clone, Debug)]
pub(crate) struct Derivation {
    pub origin: Origin,
    pub literals: Vec<Occurrence>,
    pub maximum: u16,
    pub own: HashMap<Variable, At>,
}

impl Derivation {
    /// An input clause.
    pub fn input(literals: Vec<Occurrence>) -> Derivation {
        Derivation { origin: Origin::Input, literals, maximum: 1, own: HashMap::new() }
    }
}

/// What a variable is bound to in a clause, looked up through its parents: in its own bindings first,
/// then in the parent to which the index belongs, lowered on the way in and raised on the answer.
pub(crate) fn lookup(clauses: &[Derivation], clause: u16, (number, index): Variable) -> Option<At> {
    let (mut at, mut lowered) = (clauses.get(usize::from(clause))?, 0);
    loop {
        if let Some(value) = at.own.get(&(number, index - lowered)) {
            return Some(At { row: value.row, index: value.index + lowered });
        }
        let parent = match at.origin {
            Origin::Input => return None,
            Origin::Factor { parent } => parent,
            Origin::Resolve { left, right } => {
                let maximum = clauses.get(usize::from(left))?.maximum;
                if index - lowered <= maximum {
                    left
                } else {
                    lowered += maximum;
                    right
                }
            }
        };
        at = clauses.get(usize::from(parent))?;
    }
}
