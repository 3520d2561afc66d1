//! Expressions of a clause read out: one level, or as text.

use yestrwyn_types::limits::READOUT_OCCURRENCES;

use crate::derivation::At;
use crate::environment::{End, Environment};
use crate::file::FileBuilder;
use crate::handles::Clause;
use crate::standing::{Expression, Value};

/// Reads expressions of one clause.
pub(crate) struct Reading<'a> {
    file: &'a FileBuilder,
    environment: Environment<'a>,
    clause: Clause,
}

impl<'a> Reading<'a> {
    /// Reads in a clause, with its bindings.
    pub fn new(file: &'a FileBuilder, environment: Environment<'a>, clause: Clause) -> Reading<'a> {
        Reading { file, environment, clause }
    }

    /// What stands at the top of an expression.
    pub fn top(&mut self, at: At) -> Value {
        let clause = self.clause;
        match self.environment.follow(at) {
            End::Unbound(end) => {
                let number = self.environment.record(end.row).fields[0];
                Value::Variable { number, index: end.index }
            }
            End::Application(end) => {
                let symbol = self.file.symbol_of(self.environment.record(end.row).fields[0]);
                let arguments = self.environment.arguments(end).map(|at| Expression { clause, at });
                Value::Application { symbol, arguments: arguments.collect() }
            }
        }
    }

    /// A term as the readout writes it: in full, or `~` if it has more than 64 symbols and variables.
    pub fn text(&mut self, at: At) -> String {
        let mut room = READOUT_OCCURRENCES;
        self.written(at, &mut room).unwrap_or("~".to_string())
    }

    /// A term in full, if it has no more occurrences than there is room for; each takes one away.
    fn written(&mut self, at: At, room: &mut usize) -> Option<String> {
        *room = room.checked_sub(1)?;
        match self.top(at) {
            Value::Variable { number, index } => Some(format!("v{number}.{index}")),
            Value::Application { symbol, arguments } if arguments.is_empty() => {
                Some(format!("s{}", symbol.number()))
            }
            Value::Application { symbol, arguments } => {
                let inner: Option<Vec<String>> =
                    arguments.iter().map(|inner| self.written(inner.at, room)).collect();
                Some(format!("s{}({})", symbol.number(), inner?.join(",")))
            }
        }
    }
}
