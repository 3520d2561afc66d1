//! The running builder beside the second implementation: each step's literals, or its refusal.

use std::collections::HashSet;

use yestrwyn_builder::{neg, pos, BuildError, Clause, Derived, Row, RunningBuilder, Standing, Symbol, Value};
use yestrwyn_second::checker::Checker;
use yestrwyn_second::{check, readout};
use yestrwyn_types::limits::RECORD_BYTES;
use yestrwyn_types::record::{kind, read, Record};
use yestrwyn_types::Verdict;
use yestrwyn_vectors::examples::{cases, days, deep, edges, published, refusals, Example};
use yestrwyn_vectors::{clashing_file, clashing_several_file, damage, dated_file, random_file};
use yestrwyn_vectors::{random_file_of, repeating_file, several_file};

/// A file's records given to the running builder one by one, as far as its types can say them.
#[derive(Default)]
struct Replay {
    running: RunningBuilder,
    checker: Checker,
    symbols: Vec<Symbol>,
    rows: Vec<Row>,
    clauses: Vec<Clause>,
    steps: usize,
    refused: usize,
}

impl Replay {
    /// Gives it a record; false at one that does not stand.
    fn record(&mut self, record: &Record) -> bool {
        let theirs = self.checker.record(&record.to_bytes());
        if !matches!(record.kind, kind::RESOLVE | kind::FACTOR | kind::RESOLVE_SEVERAL) {
            return theirs.is_ok() && self.put(record).is_ok();
        }
        if theirs.is_err_and(|reason| reason.number() <= 5) {
            // A literal or clause that does not exist: the builder has an error of its own for it.
            return false;
        }
        let ours = self.step(record);
        match theirs {
            Ok(()) => self.clauses.push(ours.expect("the step stands").clause),
            Err(reason) => assert_eq!(ours, Err(BuildError::Refused(reason))),
        }
        self.steps += 1;
        self.refused += usize::from(theirs.is_err());
        theirs.is_ok()
    }

    /// A symbol, a row, an input clause or its days.
    fn put(&mut self, record: &Record) -> Result<(), BuildError> {
        let row = |row: &u16| self.rows[usize::from(*row)];
        let used = usize::from(record.count);
        match record.kind {
            kind::SYMBOL => self.symbols.push(self.running.symbol(record.count)?),
            kind::VARIABLE => self.rows.push(self.running.variable(record.fields[0])?),
            kind::APPLICATION => {
                let arguments: Vec<Row> = record.fields[1..=used].iter().map(row).collect();
                let symbol = self.symbols[usize::from(record.fields[0])];
                self.rows.push(self.running.apply(symbol, &arguments)?);
            }
            kind::WINDOW => {
                let [clause, first, last, ..] = record.fields;
                self.running.in_force(self.clauses[usize::from(clause)], first..=last)?;
            }
            _ => {
                let signed =
                    |code: &u16| if code % 2 == 1 { pos(row(&(code / 2))) } else { neg(row(&(code / 2))) };
                let literals: Vec<_> = record.fields[..used].iter().map(signed).collect();
                self.clauses.push(self.running.clause(&literals)?);
            }
        }
        Ok(())
    }

    /// A step.
    fn step(&mut self, record: &Record) -> Result<Derived, BuildError> {
        let [a, b, c, d, ..] = record.fields;
        let clause = |number: u16| self.clauses[usize::from(number)];
        match record.kind {
            kind::RESOLVE => self.running.resolve(clause(a).literal(b), clause(c).literal(d)),
            kind::RESOLVE_SEVERAL => {
                let numbers = &record.fields[3..3 + usize::from(record.count)];
                let rights: Vec<_> = numbers.iter().map(|&number| clause(c).literal(number)).collect();
                self.running.resolve_several(clause(a).literal(b), &rights)
            }
            _ => self.running.factor(clause(a).literal(b), clause(a).literal(c)),
        }
    }

    /// The verdict on what was written so far, by the builder.
    fn accepted(&self, day: u16) -> Verdict {
        self.running.accepted(day).map_or(Verdict::Open, |clause| Verdict::Accepted(clause.number()))
    }

    /// The clauses' literals as text, a line for each clause.
    fn text(&self) -> Vec<String> {
        let line = |&clause: &Clause| {
            let literals = self.running.literals(clause).expect("a clause that stands");
            let texts: Vec<String> = literals.iter().map(|literal| self.running.text(literal)).collect();
            texts.join(" ")
        };
        self.clauses.iter().map(line).collect()
    }
}

/// Plays a file with days, and compares what is accepted on days around its own.
fn same_on_days(name: &str, day: u16, file: &[u8]) -> usize {
    let mut replay = Replay::default();
    let mut records = 0;
    while read(file, records).is_some_and(|record| replay.record(&record)) {
        records += 1;
    }
    let standing = &file[..RECORD_BYTES * usize::from(records)];
    let days = [day.wrapping_sub(1), day, day.wrapping_add(1)];
    for day in days {
        assert_eq!(replay.accepted(day), check(day, standing).verdict, "{name} on day {day}");
    }
    usize::from(days.iter().any(|&other| replay.accepted(other) != replay.accepted(day)))
}

/// The lines of a file's clauses in its readout, without their numbers.
fn clause_lines(file: &[u8]) -> Vec<String> {
    let text = String::from_utf8(readout(0, file)).expect("text");
    text.lines().skip(1).map(|line| line.splitn(3, ' ').nth(2).unwrap_or("").to_string()).collect()
}

/// Runs a file up to its first refused record, and compares every line; returns how many steps there
/// were and how many of them were refused.
fn same(name: &str, file: &[u8]) -> (usize, usize) {
    let mut replay = Replay::default();
    let mut records = 0;
    while read(file, records).is_some_and(|record| replay.record(&record)) {
        records += 1;
    }
    let (written, standing) = (replay.running.bytes(), &file[..RECORD_BYTES * usize::from(records)]);
    assert_eq!(replay.text(), clause_lines(standing), "{name}");
    // A row that is written again is none of the builder's, which has the same clauses all the same.
    assert_eq!(clause_lines(written), clause_lines(standing), "{name}");
    for day in [0, u16::MAX] {
        assert_eq!(replay.accepted(day), check(day, standing).verdict, "{name} on day {day}");
    }
    let rows: HashSet<Row> = replay.rows.iter().copied().collect();
    assert!(rows.len() < replay.rows.len() || written == standing, "{name}");
    (replay.steps, replay.refused)
}

fn same_all(examples: &[Example]) {
    for example in examples {
        same(&example.name, &example.file);
    }
}

#[test]
fn named_files() {
    same_all(&cases::examples());
    same_all(&published());
    same_all(&refusals::examples());
    same_all(&edges::examples());
}

#[test]
fn deep_files() {
    // Reading every line of a derivation of 4,000 steps through its parents takes too long.
    let short = |example: &Example| !example.name.starts_with("deep-derivation");
    same_all(&deep::examples().into_iter().filter(short).collect::<Vec<_>>());
    same("a shorter count", &deep::derivation(300));
    same("a shorter chain of two derived parents", &deep::two_derived(300));
}

#[test]
fn random_files() {
    let (mut steps, mut refused) = (0, 0);
    for seed in 0..3000 {
        let file = match seed % 3 {
            0 => random_file(seed),
            1 => damage(&random_file(seed), seed),
            _ => random_file_of(seed, 100),
        };
        let (more, lost) = same(&format!("seed {seed}"), &file);
        steps += more;
        refused += lost;
    }
    assert!(steps > 50_000 && refused > 200, "{steps} steps, {refused} refused");
}

#[test]
fn clashing_files() {
    let mut refused = 0;
    for seed in 0..1000 {
        refused += same(&format!("clashing {seed}"), &clashing_file(seed)).1;
    }
    assert!(refused > 800, "{refused} refused");
}

#[test]
fn files_with_repeated_rows() {
    for seed in 0..1000 {
        same(&format!("repeating {seed}"), &repeating_file(seed));
    }
}

#[test]
fn files_with_steps_on_several_literals() {
    let mut refused = 0;
    for seed in 0..2000 {
        refused += same(&format!("several {seed}"), &several_file(seed)).1;
        same(&format!("several {seed}, damaged"), &damage(&several_file(seed), seed));
    }
    assert!(refused > 300, "{refused} refused");
    for seed in 0..1000 {
        same(&format!("clashing several {seed}"), &clashing_several_file(seed));
    }
}

#[test]
fn files_with_days() {
    for example in days::examples() {
        same(&example.name, &example.file);
        same_on_days(&example.name, example.day, &example.file);
    }
    let mut differ = 0;
    for seed in 0..1500 {
        let (day, file) = dated_file(seed);
        same(&format!("dated {seed}"), &file);
        differ += same_on_days(&format!("dated {seed}"), day, &file);
    }
    assert!(differ > 150, "{differ} files whose days differ");
}

#[test]
fn a_refused_step_leaves_the_file() -> Result<(), BuildError> {
    let mut file = RunningBuilder::new();
    let p = file.symbol(1)?;
    let x = file.variable(0)?;
    let atom = file.apply(p, &[x])?;
    let clause = file.clause(&[pos(atom), pos(atom)])?;
    let written = file.bytes().to_vec();
    for refused in [
        file.resolve(clause.literal(1), clause.literal(2)),
        file.factor(clause.literal(1), clause.literal(1)),
        file.factor(clause.literal(1), clause.literal(3)),
        file.resolve_several(clause.literal(1), &[clause.literal(2)]),
        file.resolve_several(clause.literal(1), &[clause.literal(2), clause.literal(1)]),
        file.resolve_several(clause.literal(1), &[]),
    ] {
        assert!(refused.is_err());
    }
    assert_eq!(file.bytes(), written);
    let derived = file.factor(clause.literal(1), clause.literal(2))?;
    assert_eq!((derived.clause.number(), derived.literals.len(), derived.is_empty()), (1, 1, false));
    Ok(())
}

#[test]
fn values_are_looked_at_level_by_level() -> Result<(), BuildError> {
    // p(x), and -p(g(y,a)) q(y): the resolvent's literal is q(y) of the second use.
    let mut file = RunningBuilder::new();
    let [p, q, g, a] = [file.symbol(1)?, file.symbol(1)?, file.symbol(2)?, file.symbol(0)?];
    let (x, y, constant) = (file.variable(0)?, file.variable(1)?, file.constant(a)?);
    let (px, qx, term) = (file.apply(p, &[x])?, file.apply(q, &[x])?, file.apply(g, &[y, constant])?);
    let p_term = file.apply(p, &[term])?;
    let left = file.clause(&[pos(px), pos(qx)])?;
    let right = file.clause(&[neg(p_term)])?;
    let derived = file.resolve(left.literal(1), right.literal(1))?;
    let [Standing { literal, positive: true, atom }] = derived.literals[..] else { panic!("{derived:?}") };
    assert_eq!((literal.clause(), literal.number()), (derived.clause, 1));
    let Value::Application { symbol, arguments } = file.value(atom) else { panic!("an atom") };
    assert_eq!((symbol, arguments.len()), (q, 1));
    let Value::Application { symbol, arguments } = file.value(arguments[0]) else { panic!("a term") };
    assert_eq!((symbol, symbol.arity()), (g, 2));
    assert_eq!(file.value(arguments[0]), Value::Variable { number: 1, index: 2 });
    assert_eq!(file.value(arguments[1]), Value::Application { symbol: a, arguments: Vec::new() });
    Ok(())
}
