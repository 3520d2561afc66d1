//! Each line of the proof as a clause of the file to be, which says at least as much.

use std::collections::{BTreeSet, HashMap};

use yestrwyn_types::limits::{INPUT_LITERALS, VARIABLES};

use crate::error::{Fault, SpassError};
use crate::growing::Growing;
use crate::proof::{Line, Proof};
use crate::search::join;
use crate::splitting::Split;
use crate::steps::Steps;
use crate::term::{Clause, Literal};

/// Inferences that are about equality, whatever clause they give.
const ABOUT_EQUALITY: [&str; 10] = ["EqR", "EqF", "MPm", "SpR", "SpL", "SPm", "OPm", "Rew", "CRw", "AED"];

/// As many further copies of parents are tried as an inference names literals, but at least so many.
const LEAST_JOINS: usize = 4;

/// The steps of a whole proof, and the clause among them that is empty.
pub(crate) struct Converting {
    pub steps: Steps,
    pub empty: usize,
}

/// What says at least as much as a line of the proof, but for what splits leave open.
#[derive(Clone, Debug)]
struct Entry {
    said: Said,
    /// The splits that the line rests on, by number.
    splits: BTreeSet<usize>,
}

/// A clause of the file to be, or what a split assumes.
#[derive(Clone, Copy, Debug)]
enum Said {
    Clause(usize),
    Assumed,
}

/// A conversion under way.
struct Conversion<'a> {
    proof: &'a Proof,
    steps: Steps,
    /// By SPASS's numbers.
    entries: HashMap<u32, Entry>,
    splits: Vec<Split>,
    /// Symbols from this number on are free to stand for variables.
    constants: usize,
}

/// Converts a proof up to its first empty clause.
pub(crate) fn convert(proof: &Proof) -> Result<Converting, SpassError> {
    let constants = proof.symbols.all().len();
    let (steps, entries, splits) = (Steps::default(), HashMap::new(), Vec::new());
    let mut conversion = Conversion { proof, steps, entries, splits, constants };
    for (number, line) in proof.lines.iter().enumerate() {
        let entry = conversion.entry(number, line).map_err(|fault| line.error(fault))?;
        if let Said::Clause(empty) = entry.said {
            if conversion.steps.clause(empty).literals.is_empty() {
                return Ok(Converting { steps: conversion.steps, empty });
            }
        }
        conversion.entries.insert(line.number, entry);
    }
    Err(SpassError::whole(Fault::NoEmptyClause))
}

impl Conversion<'_> {
    /// What says at least as much as a line.
    fn entry(&mut self, number: usize, line: &Line) -> Result<Entry, Fault> {
        if self.entries.contains_key(&line.number) {
            return Err(Fault::Twice);
        }
        match (line.inference.as_str(), line.parents.as_slice()) {
            ("Inp", _) => self.input(number, line),
            ("Spt", [whole, rest @ ..]) => match rest.iter().find(|&part| part != whole) {
                None => self.first_part(number, line, *whole),
                Some(&whole) => self.after_split(number, line, whole),
            },
            (inference, _) if ABOUT_EQUALITY.contains(&inference) => Err(Fault::Equality),
            _ => {
                let splits = self.splits_of(line)?;
                self.derived(number, line, splits)
            }
        }
    }

    /// The input clause of a line.
    fn input(&mut self, number: usize, line: &Line) -> Result<Entry, Fault> {
        let Clause { literals, variables } = &line.clause;
        match literals.len() {
            0 => Err(Fault::EmptyInput),
            count if count > INPUT_LITERALS.into() => Err(Fault::Literals(count)),
            _ if *variables > VARIABLES => Err(Fault::Variables(*variables)),
            _ => {
                let said = Said::Clause(self.steps.input(number, line.clause.clone()));
                Ok(Entry { said, splits: BTreeSet::new() })
            }
        }
    }

    /// The part of a clause with which a split begins: one literal without variables is assumed; of another part the whole clause
    /// is taken, and the rest of it left open.
    fn first_part(&mut self, number: usize, line: &Line, whole: u32) -> Result<Entry, Fault> {
        let mut splits = self.splits_of(line)?;
        splits.insert(self.splits.len());
        let split = match line.clause.literals.as_slice() {
            [literal] if line.clause.variables == 0 => Split::assuming(whole, literal),
            _ => {
                let printed = self.proof.lines.iter().find(|other| other.number == whole);
                let printed = printed.ok_or(Fault::NoParent(whole))?.clause.clone();
                let first = self.take_constants(&printed);
                Split::leaving(whole, &printed, &line.clause, first).ok_or(Fault::Splitting)?
            }
        };
        self.splits.push(split);
        self.derived(number, line, splits)
    }

    /// A line that comes once the first part is refuted: the other part, or the first one's opposite.
    fn after_split(&mut self, number: usize, line: &Line, whole: u32) -> Result<Entry, Fault> {
        let mut splits = self.splits_of(line)?;
        let ended = splits.iter().rev().find(|&&split| self.splits[split].whole == whole).copied();
        ended.map(|split| splits.remove(&split));
        self.derived(number, line, splits).map_err(|fault| match fault {
            Fault::NotFound => Fault::Splitting,
            fault => fault,
        })
    }

    /// The splits that the parents of a line rest on.
    fn splits_of(&self, line: &Line) -> Result<BTreeSet<usize>, Fault> {
        let mut splits = BTreeSet::new();
        for parent in &line.parents {
            splits.extend(&self.entries.get(parent).ok_or(Fault::NoParent(*parent))?.splits);
        }
        Ok(splits)
    }

    /// A clause that says at least as much as that of a line but for what splits leave open, made from those of its parents.
    fn derived(&mut self, number: usize, line: &Line, splits: BTreeSet<usize>) -> Result<Entry, Fault> {
        let first = self.take_constants(&line.clause);
        let mut target = line.clause.fixed(first);
        if splits.iter().any(|&split| self.splits[split].assumes_one_of(&target)) {
            return Ok(Entry { said: Said::Assumed, splits });
        }
        splits.iter().for_each(|&split| target.extend_from_slice(&self.splits[split].open));
        let parents = self.parents(line);
        let most = line.parents.len().max(LEAST_JOINS);
        let clause = made(&mut self.steps, number, &parents, &target, most).ok_or(Fault::NotFound)?;
        Ok(Entry { said: Said::Clause(clause), splits })
    }

    /// The clauses of a line's parents, each once. The latest comes first: the search begins with it, and it becomes the left clause of
    /// the steps.
    fn parents(&self, line: &Line) -> Vec<usize> {
        let said = line.parents.iter().filter_map(|parent| self.entries.get(parent)).map(|entry| entry.said);
        let clauses = said.filter_map(|said| match said {
            Said::Clause(clause) => Some(clause),
            Said::Assumed => None,
        });
        let parents: BTreeSet<usize> = clauses.collect();
        parents.into_iter().rev().collect()
    }

    /// As many constants as a clause has variables: the first of them.
    fn take_constants(&mut self, clause: &Clause) -> usize {
        self.constants += clause.variables;
        self.constants - clause.variables
    }
}

/// A clause made from parents all of whose literals become literals of a target.
fn made(steps: &mut Steps, line: usize, parents: &[usize], target: &[Literal], most: usize) -> Option<usize> {
    let joined = {
        let read: Vec<&Clause> = parents.iter().map(|&parent| steps.clause(parent)).collect();
        join(&read, target, most)?
    };
    Growing { steps, line, parents, joined: &joined }.clause()
}
