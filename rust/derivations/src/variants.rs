//! Input clauses that are the same up to the order of their literals and a one-to-one renaming of variables.

use std::collections::HashMap;

use crate::model::{Model, Node};

/// A term without regard to which variables are in it: what it is, with its variables numbered by first appearance.
#[derive(Clone)]
struct Pattern {
    /// Equal exactly for terms that are equal up to renaming.
    number: u32,
    /// The variables, by first appearance.
    variables: Vec<u16>,
}

/// The patterns of all files that are compared.
#[derive(Default)]
pub struct Patterns {
    /// Of each pattern, what it is made of: a symbol, and for each argument its pattern and where its variables stand among those of the
    /// whole.
    numbers: HashMap<Vec<u32>, u32>,
}

/// What tells input clauses apart: equal exactly for those that are the same up to order and renaming.
pub type Key = Vec<u32>;

impl Patterns {
    /// The keys of all input clauses of a file, by their number.
    pub fn keys(&mut self, model: &Model<'_>) -> HashMap<u16, Key> {
        let rows = self.rows(model);
        let inputs = (0..).zip(model.clauses()).filter(|(_, clause)| clause.is_input());
        let literals = inputs.map(|(number, clause)| {
            let literal = |literal: &crate::model::Literal| {
                let Pattern { number, variables } = &rows[usize::from(literal.atom.row)];
                Part { code: 2 * number + u32::from(literal.positive), variables }
            };
            (number, key(&clause.literals.iter().map(literal).collect::<Vec<_>>()))
        });
        literals.collect()
    }

    /// The patterns of all rows.
    fn rows(&mut self, model: &Model<'_>) -> Vec<Pattern> {
        let mut rows: Vec<Pattern> = Vec::with_capacity(model.rows().len());
        for row in model.rows() {
            rows.push(match &row.node {
                Node::Variable(number) => Pattern { number: 0, variables: vec![*number] },
                Node::Application { symbol, arguments } => self.application(*symbol, arguments, &rows),
            });
        }
        rows
    }

    /// The pattern of an application. Number 0 is that of a variable.
    fn application(&mut self, symbol: u16, arguments: &[u16], rows: &[Pattern]) -> Pattern {
        let (mut made_of, mut variables) = (vec![u32::from(symbol)], Vec::new());
        for argument in arguments {
            let argument = &rows[usize::from(*argument)];
            made_of.push(argument.number);
            made_of.extend(argument.variables.iter().map(|&variable| place(&mut variables, variable)));
        }
        let next = self.numbers.len() as u32 + 1;
        Pattern { number: *self.numbers.entry(made_of).or_insert(next), variables }
    }
}

/// The place of a variable in a list, to which it is added if it is not there.
fn place(list: &mut Vec<u16>, variable: u16) -> u32 {
    let there = list.iter().position(|&other| other == variable).unwrap_or_else(|| {
        list.push(variable);
        list.len() - 1
    });
    there as u32
}

/// A literal: its pattern with its sign, and its variables.
#[derive(Clone, Copy, PartialEq, Eq)]
struct Part<'a> {
    code: u32,
    variables: &'a [u16],
}

/// The key of a clause: its literals in that order that gives the least numbers, with variables numbered by first appearance.
fn key(literals: &[Part<'_>]) -> Key {
    least(literals, &[])
}

/// The least numbers of the literals that are left, where some variables have a number already. Where several literals can come first, each
/// is tried; an input clause has at most seven.
fn least(left: &[Part<'_>], numbered: &[u16]) -> Key {
    let codes: Vec<Key> = left.iter().map(|literal| code(literal, &mut numbered.to_vec())).collect();
    let Some(first) = codes.iter().min() else { return Vec::new() };
    let candidates = (0..left.len()).filter(|&at| codes[at] == *first && !left[..at].contains(&left[at]));
    let rests = candidates.map(|at| {
        let mut numbered = numbered.to_vec();
        code(&left[at], &mut numbered);
        let others: Vec<Part<'_>> = [&left[..at], &left[at + 1..]].concat();
        least(&others, &numbered)
    });
    let rest = rests.min().unwrap_or_default();
    [&first[..], &rest].concat()
}

/// The numbers of a literal: its code, and its variables, of which new ones get the next numbers.
fn code(literal: &Part<'_>, numbered: &mut Vec<u16>) -> Key {
    let mut code = vec![literal.code];
    code.extend(literal.variables.iter().map(|&variable| place(numbered, variable)));
    code
}
