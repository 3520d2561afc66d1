//! The steps written as a proof file, each run as it is written.

use yestrwyn_builder::{neg, pos, BuildError, Clause, Literal, Reason, Row, RunningBuilder, Signed, Symbol};
use yestrwyn_types::limits::INDEX;
use yestrwyn_types::test_name;

use crate::conversion::Converting;
use crate::error::{Fault, SpassError};
use crate::proof::Proof;
use crate::steps::{Made, Origin};
use crate::term::Term;

/// A file under way.
struct Writing {
    file: RunningBuilder,
    symbols: Vec<Symbol>,
    /// The clauses that are written, each at the place that it has among the steps.
    clauses: Vec<Option<Clause>>,
}

/// Writes symbols, all input clauses, and the steps that the empty clause uses.
pub(crate) fn write(proof: &Proof, converting: &Converting) -> Result<RunningBuilder, SpassError> {
    let mut writing = Writing { file: RunningBuilder::new(), symbols: Vec::new(), clauses: Vec::new() };
    writing.write_symbols(proof).map_err(|error| SpassError::whole(Fault::Build(error)))?;
    let used = converting.steps.used_by(converting.empty);
    for (made, used) in converting.steps.made().iter().zip(used) {
        let clause = match used || matches!(made.origin, Origin::Input { .. }) {
            true => Some(writing.write_clause(made).map_err(|error| failed(proof, made, error))?),
            false => None,
        };
        writing.clauses.push(clause);
    }
    Ok(writing.file)
}

/// An error about the line for which a clause was made.
fn failed(proof: &Proof, made: &Made, error: BuildError) -> SpassError {
    let fault = match error {
        BuildError::Refused(Reason::TooLarge) if made.uses > usize::from(INDEX) => Fault::Uses(made.uses),
        error => Fault::Build(error),
    };
    match proof.lines.get(made.line) {
        Some(line) => line.error(fault),
        None => SpassError::whole(fault),
    }
}

impl Writing {
    /// Writes all symbols with SPASS's names.
    fn write_symbols(&mut self, proof: &Proof) -> Result<(), BuildError> {
        for (name, arity) in proof.symbols.all() {
            let symbol = match printable(name, proof) {
                Some(name) => self.file.named(*arity, &name)?,
                None => self.file.symbol(*arity)?,
            };
            self.symbols.push(symbol);
        }
        Ok(())
    }

    /// Writes an input clause with its rows, or a step.
    fn write_clause(&mut self, made: &Made) -> Result<Clause, BuildError> {
        match &made.origin {
            Origin::Input { .. } => self.write_input(made),
            Origin::Resolve { left, literal, right, rights } => {
                let left = self.literal(*left, *literal)?;
                let rights = rights.iter().map(|&literal| self.literal(*right, literal));
                match rights.collect::<Result<Vec<Literal>, BuildError>>()?.as_slice() {
                    [right] => Ok(self.file.resolve(left, *right)?.clause),
                    rights => Ok(self.file.resolve_several(left, rights)?.clause),
                }
            }
            Origin::Factor { clause, kept, deleted } => {
                let (kept, deleted) = (self.literal(*clause, *kept)?, self.literal(*clause, *deleted)?);
                Ok(self.file.factor(kept, deleted)?.clause)
            }
        }
    }

    /// Writes an input clause with its rows.
    fn write_input(&mut self, made: &Made) -> Result<Clause, BuildError> {
        let mut literals: Vec<Signed> = Vec::new();
        for literal in &made.clause.literals {
            let atom = self.write_term(&literal.atom)?;
            literals.push(if literal.positive { pos(atom) } else { neg(atom) });
        }
        self.file.clause(&literals)
    }

    /// Writes the rows of a term.
    fn write_term(&mut self, term: &Term) -> Result<Row, BuildError> {
        match term {
            Term::Variable(number) => self.file.variable(u16::try_from(*number).unwrap_or(u16::MAX)),
            Term::Application { symbol, arguments } => {
                let rows = arguments.iter().map(|argument| self.write_term(argument));
                let rows = rows.collect::<Result<Vec<Row>, BuildError>>()?;
                let symbol = *self.symbols.get(*symbol).ok_or(BuildError::Foreign)?;
                self.file.apply(symbol, &rows)
            }
        }
    }

    /// A literal of a clause that was written; both are numbered from 0 among the steps.
    fn literal(&self, clause: usize, literal: usize) -> Result<Literal, BuildError> {
        let clause = self.clauses.get(clause).copied().flatten().ok_or(BuildError::Foreign)?;
        Ok(clause.literal(u16::try_from(literal + 1).unwrap_or(u16::MAX)))
    }
}

/// The name under which a symbol is printed: SPASS's own, with underscores after it where a readout would take it for a symbol or
/// a variable without a name. None if that is no name either.
fn printable(name: &str, proof: &Proof) -> Option<String> {
    let taken = |word: &str| word != name && proof.symbols.all().iter().any(|(other, _)| other == word);
    let mut word = name.to_string();
    while test_name(&word).is_err() || taken(&word) {
        word.push('_');
        if word.len() > name.len() + 3 {
            return None;
        }
    }
    Some(word)
}
