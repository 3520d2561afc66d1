//! The proof in what SPASS prints, line by line.

mod line;
mod symbols;
mod tokens;

use std::collections::HashSet;

use crate::error::{Fault, SpassError};
use crate::term::Clause;

pub(crate) use symbols::Symbols;

/// With these words the proof begins.
const BEGINNING: &str = "Here is a proof with depth";
/// Before these words SPASS lists all symbols of the problem.
const PRECEDENCE: &str = "Precedence:";
/// What SPASS says where it has no proof.
const OTHER_ENDS: [&str; 4] =
    ["Completion found.", "Ran out of time.", "Maximal number of loops exceeded.", "No problem"];

/// A line of the proof: a clause and how SPASS came by it.
#[derive(Debug)]
pub(crate) struct Line {
    /// The line of the text, from 1.
    pub place: usize,
    /// SPASS's number of the clause.
    pub number: u32,
    /// The name of the inference, of three letters.
    pub inference: String,
    /// The numbers of the clauses that the inference is about, as often as it names them.
    pub parents: Vec<u32>,
    pub clause: Clause,
}

/// A proof as it was read.
#[derive(Debug)]
pub(crate) struct Proof {
    pub lines: Vec<Line>,
    pub symbols: Symbols,
}

impl Line {
    /// An error about this line.
    pub fn error(&self, fault: Fault) -> SpassError {
        let step = Some(format!("{} ({})", self.number, self.inference));
        SpassError { line: Some(self.place), step, fault }
    }

    /// Is it an input clause?
    pub fn is_input(&self) -> bool {
        self.inference == "Inp"
    }
}

/// Reads the proof in a text. What stands before and after it is passed over.
pub(crate) fn read(text: &str) -> Result<Proof, SpassError> {
    let numbered = || text.lines().zip(1..);
    let begins = |&(line, _): &(&str, usize)| line.trim_start().starts_with(BEGINNING);
    let Some((_, beginning)) = numbered().find(begins) else {
        return Err(SpassError::whole(Fault::NoProof(said(text))));
    };
    let declared = declared(text);
    let mut proof = Proof { lines: Vec::new(), symbols: Symbols::default() };
    for (line, place) in numbered().skip(beginning).take_while(|(line, _)| is_step(line)) {
        proof.lines.push(line::read(line, place, &mut proof.symbols, &declared)?);
    }
    Ok(proof)
}

/// Does a line of the text begin with a number, as the steps of a proof do?
fn is_step(line: &str) -> bool {
    line.trim_start().starts_with(|first: char| first.is_ascii_digit())
}

/// What SPASS says where it has no proof.
fn said(text: &str) -> Option<&'static str> {
    OTHER_ENDS.into_iter().find(|end| text.contains(end))
}

/// The symbols of the problem, if SPASS lists them.
fn declared(text: &str) -> HashSet<&str> {
    let listed = text.lines().find_map(|line| line.trim_start().strip_prefix(PRECEDENCE));
    listed.map(|names| names.split('>').map(str::trim).collect()).unwrap_or_default()
}
