//! The check of one record after another: what stands so far, and the next record or its reason.

mod steps;

use yestrwyn_types::limits::{ARITY, INPUT_LITERALS, RECORDS, RECORD_BYTES, VARIABLES};
use yestrwyn_types::record::{kind, Record};
use yestrwyn_types::{Answer, Dated, Reason, Verdict};

use crate::clause::{Clause, Loader, Origin};
use crate::days::{first_empty, in_force, Window};
use crate::earliest::Earliest;
use crate::environment::Environment;
use crate::expression::{Binding, Node};
use crate::outline::Outlines;
use crate::unify::Unifier;

/// A symbol that stands.
#[derive(Clone, Copy, PartialEq, Eq, Debug)]
pub struct Symbol {
    pub record: u16,
    pub arity: u8,
}

/// Everything that the records read so far have put up, and the working memory of a step.
#[derive(Default)]
pub struct Checker {
    records: u16,
    symbols: Vec<Symbol>,
    row_records: Vec<u16>,
    nodes: Vec<Node>,
    earliest: Earliest,
    clauses: Vec<Clause>,
    /// A window for each clause; only those of input clauses have a meaning.
    windows: Vec<Window>,
    bindings: Vec<Binding>,
    /// Is some clause empty?
    empty: bool,
    outlines: Outlines,
    environment: Environment,
    loader: Loader,
    unifier: Unifier,
    work: Option<u32>,
}

impl Checker {
    /// A checker that has read no record.
    pub fn new() -> Checker {
        Checker::default()
    }

    /// Reads the next record, of the old form. If it is refused, everything stays as the records before it left it.
    /// Past 4,096 records each one more is refused as a file that is too long would be.
    pub fn record(&mut self, bytes: &[u8; RECORD_BYTES]) -> Result<(), Reason> {
        self.dated(&Dated::old(Record::from_bytes(bytes)))
    }

    /// The same for a record with its days beside it, whichever form they come from.
    pub fn dated(&mut self, dated: &Dated) -> Result<(), Reason> {
        self.work = None;
        if usize::from(self.records) >= RECORDS {
            return Err(Reason::Length);
        }
        let Dated { record, days } = dated;
        require((kind::SYMBOL..=kind::WINDOW).contains(&record.kind), Reason::Kind)?;
        require(record.kind == kind::INPUT || dated.no_days(), Reason::Range)?;
        match record.kind {
            kind::SYMBOL => self.symbol(record),
            kind::VARIABLE => self.variable(record),
            kind::APPLICATION => self.application(record),
            kind::INPUT => self.input(record, *days),
            kind::RESOLVE => self.resolve(record),
            kind::FACTOR => self.factor(record),
            kind::RESOLVE_SEVERAL => self.resolve_several(record),
            _ => self.window(record),
        }?;
        self.records += 1;
        Ok(())
    }

    /// The work of the last record read, if it was a step that passed every test up to that of its size: 0 if
    /// its outlines clash.
    pub fn last_work(&self) -> Option<u32> {
        self.work
    }

    /// The symbols that stand.
    pub fn symbols(&self) -> &[Symbol] {
        &self.symbols
    }

    /// For each row that stands its record, or that of the earliest row that equals it.
    pub fn row_records(&self) -> &[u16] {
        &self.row_records
    }

    /// The rows that stand, each with the earliest rows for its arguments.
    pub fn nodes(&self) -> &[Node] {
        &self.nodes
    }

    /// The clauses that stand.
    pub fn clauses(&self) -> &[Clause] {
        &self.clauses
    }

    /// For each clause its days; only those of input clauses have a meaning.
    pub fn windows(&self) -> &[Window] {
        &self.windows
    }

    /// The bindings of all clauses that stand.
    pub fn bindings(&self) -> &[Binding] {
        &self.bindings
    }

    /// The answer on a day if the file ended here, or if the next record were refused for a reason.
    pub fn answer(&self, day: u16, refusal: Option<Reason>) -> Answer {
        let verdict = match refusal {
            Some(reason) => Verdict::Refused { reason, record: self.records },
            None => self.accepted(day).map_or(Verdict::Open, Verdict::Accepted),
        };
        Answer {
            verdict,
            symbols: small(self.symbols.len()),
            rows: small(self.nodes.len()),
            clauses: small(self.clauses.len()),
            bindings: small(self.bindings.len()),
        }
    }

    /// The clause that is accepted on a day, by the windows as they are now.
    fn accepted(&self, day: u16) -> Option<u16> {
        // Without an empty clause there is nothing to look for.
        if !self.empty {
            return None;
        }
        first_empty(&self.clauses, &self.windows, day)
    }

    /// For each clause, whether it is made only of input clauses in force on a day, by the windows as they are now.
    pub fn in_force(&self, day: u16) -> Vec<bool> {
        in_force(&self.clauses, &self.windows, day)
    }

    /// Makes the environment that of one clause, for reading values out, and hands it out with the rows.
    pub fn load(&mut self, clause: u16) -> (&[Node], &mut Environment) {
        let index = self.clauses.get(usize::from(clause)).map_or(0, |clause| clause.max_index);
        self.environment.clear(index);
        self.load_at(clause, 0);
        (&self.nodes, &mut self.environment)
    }

    /// Kind 1: a symbol with its arity.
    fn symbol(&mut self, record: &Record) -> Result<(), Reason> {
        require(record.count <= ARITY && record.zero_from(0), Reason::Range)?;
        self.symbols.push(Symbol { record: self.records, arity: record.count });
        Ok(())
    }

    /// Kind 2: a row that is a variable.
    fn variable(&mut self, record: &Record) -> Result<(), Reason> {
        let number = record.fields[0];
        let in_range = record.count == 0 && usize::from(number) < VARIABLES;
        require(in_range && record.zero_from(1), Reason::Range)?;
        self.row(record, Node::Variable(number));
        Ok(())
    }

    /// Kind 3: a row that is an application of a symbol to earlier rows.
    fn application(&mut self, record: &Record) -> Result<(), Reason> {
        let count = usize::from(record.count);
        require(record.count <= ARITY && record.zero_from(1 + count), Reason::Range)?;
        let symbol = record.fields[0];
        let known = self.symbols.get(usize::from(symbol)).is_some_and(|known| known.arity == record.count);
        require(known, Reason::Missing)?;
        let mut replaced = *record;
        for argument in &mut replaced.fields[1..1 + count] {
            *argument = self.earliest.of(*argument).ok_or(Reason::Missing)?;
        }
        self.row(&replaced, Node::application(symbol, &replaced.fields[1..1 + count]));
        Ok(())
    }

    /// Adds a row, its arguments replaced. One that equals an earlier row gets that row's record.
    fn row(&mut self, replaced: &Record, node: Node) {
        let earliest = self.earliest.add(replaced);
        let record = self.row_records.get(usize::from(earliest)).copied().unwrap_or(self.records);
        self.row_records.push(record);
        self.nodes.push(node);
    }

    /// Kind 4: an input clause, of which each literal is on the earliest row, with its days.
    fn input(&mut self, record: &Record, [first, last]: [u16; 2]) -> Result<(), Reason> {
        let count = usize::from(record.count);
        require(record.count <= INPUT_LITERALS && record.zero_from(count), Reason::Range)?;
        let mut codes = record.fields;
        for code in &mut codes[..count] {
            *code = 2 * self.earliest.of(*code / 2).ok_or(Reason::Missing)? + *code % 2;
        }
        require(first <= last, Reason::Crossed)?;
        let is_variable =
            |code: &u16| matches!(self.nodes.get(usize::from(code / 2)), Some(Node::Variable(_)));
        require(!codes[..count].iter().any(is_variable), Reason::VariableLiteral)?;
        self.clause(Origin::Input(codes), u16::from(record.count), 1, self.bindings.len());
        if let Some(window) = self.windows.last_mut() {
            *window = Window { first, last };
        }
        Ok(())
    }

    /// Kind 8: the days of an input clause, in place of those that an earlier record gave it.
    fn window(&mut self, record: &Record) -> Result<(), Reason> {
        require(record.count == 0 && record.zero_from(3), Reason::Range)?;
        let [clause, first, last, ..] = record.fields;
        let is_input = |clause: &Clause| matches!(clause.origin, Origin::Input(_));
        let clause = usize::from(clause);
        require(self.clauses.get(clause).is_some_and(is_input), Reason::Missing)?;
        require(first <= last, Reason::Crossed)?;
        self.windows[clause] = Window { first, last };
        Ok(())
    }

    /// Loads the bindings of a derivation into the environment, indices raised by `offset`.
    fn load_at(&mut self, clause: u16, offset: u16) {
        let Checker { clauses, bindings, environment, loader, .. } = self;
        loader.load(clauses, bindings, environment, clause, offset);
    }

    /// Adds a clause whose own bindings are those from number `held` on.
    fn clause(&mut self, origin: Origin, literals: u16, max_index: u16, held: usize) {
        self.empty |= literals == 0;
        self.windows.push(Window::ALWAYS);
        self.clauses.push(Clause {
            record: self.records,
            origin,
            literals,
            max_index,
            first_binding: small(held),
            bindings: small(self.bindings.len() - held),
        });
    }
}

/// A test of a record: refused with this reason unless it holds.
fn require(holds: bool, otherwise: Reason) -> Result<(), Reason> {
    if holds {
        Ok(())
    } else {
        Err(otherwise)
    }
}

/// A count that the limits of the format keep within 16 bits.
fn small(count: usize) -> u16 {
    u16::try_from(count).unwrap_or(u16::MAX)
}
