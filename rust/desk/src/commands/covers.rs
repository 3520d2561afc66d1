//! `yestrwyn covers`: which input clause covers which.

use std::ffi::OsStr;
use std::ops::ControlFlow;

use yestrwyn::{covers_here, Cells, Covering, Outcome};
use yestrwyn_derivations::{Clause, Literal, Model, Node};

use super::options::clause;
use super::Command;
use crate::arguments::{Arguments, Takes};
use crate::checking::CheckedFile;
use crate::failure::Failure;
use crate::input::Source;
use crate::output::Output;
use crate::pool::{in_order, processors, Taker};
use crate::progress::Progress;
use crate::status::Status;

pub const COMMAND: Command = Command {
    name: "covers",
    synopsis: "FILE [C D]",
    summary: "Whether input clause C covers input clause D, or every two of which one covers the other.",
    text: "\
C covers D if something can be put for its variables that turns every literal of C into a literal of D; a
rulebook with C does not need D. The answer says which literal becomes which. Without C and D a line is
printed for every two different input clauses of which the first covers the second.
",
    proved: "every yes with its literals, and the no to a question about C and D.",
    not_proved: "without C and D, that no pair is missing: two clauses are not asked about where a literal of the\n\
                 first cannot become one of the second by its sign, its symbol and the symbols of its arguments.",
    statuses: "0 a yes, or every pair listed; 1 a no; 2 refused; 3 not read or written.",
    takes: Takes { flags: &[], values: &[] },
    run,
};

/// Two clauses.
type Pair = (u16, u16);

fn run(arguments: &Arguments, output: &mut Output) -> Result<Status, Failure> {
    match arguments.rest() {
        [file] => every_pair(&read(file)?, output),
        [file, c, d] => one_pair(&read(file)?, (clause(c)?, clause(d)?), output),
        _ => Err(Failure::usage("a file is wanted, alone or with two clauses")),
    }
}

/// A file that was checked on whatever day: days play no part in coverings.
fn read(word: &OsStr) -> Result<CheckedFile, Failure> {
    CheckedFile::read(Source::of(word), Some(0))
}

/// Answers the question about one pair.
fn one_pair(file: &CheckedFile, (c, d): Pair, output: &mut Output) -> Result<Status, Failure> {
    file.standing_model()?;
    let covering = yestrwyn::covers(&file.bytes, c, d).map_err(|error| Failure::of(&file.source, error))?;
    match covering.outcome {
        Outcome::Refused { reason, record } => Err(Failure::refused(&file.source, reason, record)),
        Outcome::No => {
            output.print(format!("clause {c} does not cover clause {d}\n"))?;
            Ok(Status::Open)
        }
        Outcome::Yes => {
            output.print(line((c, d), &covering))?;
            Ok(Status::Accepted)
        }
    }
}

/// A yes in words.
fn line((c, d): Pair, covering: &Covering) -> String {
    let chosen = covering.literals.iter().zip(1..).filter(|(literal, _)| **literal > 0);
    let literals: Vec<String> = chosen.map(|(to, from)| format!("literal {from} becomes {to}")).collect();
    format!("clause {c} covers clause {d}: {}\n", literals.join(", "))
}

/// Lists every pair.
fn every_pair(file: &CheckedFile, output: &mut Output) -> Result<Status, Failure> {
    let pairs = candidates(file)?;
    let mut listing = Listing {
        progress: Progress::new(pairs.len(), "pairs"),
        pairs: &pairs,
        done: 0,
        found: false,
        failure: None,
        output,
    };
    let worker = || {
        let mut cells = Cells::new();
        move |&(c, d): &Pair| covers_here(&file.bytes, c, d, &mut cells.lend())
    };
    let threads = in_order(processors(), &pairs, worker, &mut listing);
    threads.map_err(|error| Failure::of(&file.source, error))?;
    listing.end()
}

/// The pairs of different input clauses that are asked about: each literal of the first has one of the second that it may become.
fn candidates(file: &CheckedFile) -> Result<Vec<Pair>, Failure> {
    let model = file.standing_model()?;
    let inputs: Vec<(u16, &Clause)> =
        (0..).zip(model.clauses()).filter(|(_, clause)| clause.is_input()).collect();
    let may_cover = |c: &Clause, d: &Clause| {
        c.literals.iter().all(|one| d.literals.iter().any(|other| may_become(&model, *one, *other)))
    };
    let pairs = inputs.iter().flat_map(|c| inputs.iter().map(move |d| (c, d)));
    let possible = pairs.filter(|((c, one), (d, other))| c != d && may_cover(one, other));
    Ok(possible.map(|((c, _), (d, _))| (*c, *d)).collect())
}

/// May a literal become another, by its sign, its symbol and the symbols of its arguments? What is put for variables leaves these as they
/// are, so that it cannot if they differ.
fn may_become(model: &Model<'_>, one: Literal, other: Literal) -> bool {
    let [rows, others] = [one, other].map(|literal| model.node(literal.atom.row).arguments());
    let mut arguments = rows.iter().zip(others);
    one.positive == other.positive
        && may_be(model, one.atom.row, other.atom.row)
        && arguments.all(|(&row, &other)| may_be(model, row, other))
}

/// May a row become another, by its symbol?
fn may_be(model: &Model<'_>, row: u16, other: u16) -> bool {
    match (model.node(row), model.node(other)) {
        (Node::Variable(_), _) => true,
        (Node::Application { symbol, .. }, Node::Application { symbol: other, .. }) => symbol == other,
        (Node::Application { .. }, Node::Variable(_)) => false,
    }
}

/// The answers, of which each yes is written.
struct Listing<'a> {
    pairs: &'a [Pair],
    done: usize,
    found: bool,
    progress: Progress,
    failure: Option<Failure>,
    output: &'a mut Output,
}

impl Taker<Covering> for Listing<'_> {
    fn take(&mut self, covering: Covering) -> ControlFlow<()> {
        let pair = self.pairs[self.done];
        self.done += 1;
        if !covering.is_yes() {
            return ControlFlow::Continue(());
        }
        self.found = true;
        self.progress.clear();
        self.output.print_or_break(line(pair, &covering), &mut self.failure)
    }

    fn tick(&mut self, done: usize) {
        self.progress.show(done);
    }
}

impl Listing<'_> {
    /// Ends the list, which may have no pair.
    fn end(mut self) -> Result<Status, Failure> {
        self.progress.clear();
        if let Some(failure) = self.failure {
            return Err(failure);
        }
        if !self.found {
            self.output.print("no input clause covers another\n")?;
        }
        Ok(Status::Accepted)
    }
}
