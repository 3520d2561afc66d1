//! The bindings in force in one clause, as they are asked for.

use std::collections::HashMap;

use yestrwyn_types::record::{kind, Record};

use crate::derivation::{lookup, At, Derivation, Variable};

/// What following an expression ends on.
#[derive(Clone, Copy, PartialEq, Eq, Debug)]
pub(crate) enum End {
    /// A variable without a value.
    Unbound(At),
    /// An application.
    Application(At),
}

impl End {
    /// The expression, whichever it is.
    pub fn at(self) -> At {
        match self {
            End::Unbound(at) | End::Application(at) => at,
        }
    }
}

/// The bindings of one clause: what was looked up is kept, with long ways made short.
pub(crate) struct Environment<'a> {
    rows: &'a [Record],
    clauses: &'a [Derivation],
    clause: u16,
    known: HashMap<Variable, At>,
}

impl<'a> Environment<'a> {
    /// The bindings in a clause.
    pub fn new(rows: &'a [Record], clauses: &'a [Derivation], clause: u16) -> Environment<'a> {
        Environment { rows, clauses, clause, known: HashMap::new() }
    }

    /// A row's record.
    pub fn record(&self, row: u16) -> Record {
        self.rows.get(usize::from(row)).copied().unwrap_or(Record::new(0, 0, &[]))
    }

    /// The argument rows of an application.
    pub fn arguments(&self, at: At) -> impl DoubleEndedIterator<Item = At> {
        let record = self.record(at.row);
        let rows = record.fields.into_iter().skip(1).take(usize::from(record.count));
        let rows: Vec<u16> = rows.collect();
        rows.into_iter().map(move |row| At { row, index: at.index })
    }

    /// The variable that an expression is, if it is one.
    pub fn variable(&self, at: At) -> Option<Variable> {
        let record = self.record(at.row);
        (record.kind == kind::VARIABLE).then_some((record.fields[0], at.index))
    }

    /// Binds a variable.
    pub fn bind(&mut self, variable: Variable, value: At) {
        self.known.insert(variable, value);
    }

    /// Goes from value to value to an application or an unbound variable.
    pub fn follow(&mut self, start: At) -> End {
        let mut passed: Vec<Variable> = Vec::new();
        let mut at = start;
        let end = loop {
            let Some(variable) = self.variable(at) else { break End::Application(at) };
            let known = self.known.get(&variable).copied();
            let Some(next) = known.or_else(|| lookup(self.clauses, self.clause, variable)) else {
                break End::Unbound(at);
            };
            passed.push(variable);
            at = next;
        };
        for variable in passed {
            self.known.insert(variable, at);
        }
        end
    }
}
