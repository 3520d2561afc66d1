//! Files sketched from terms written as trees, also faulty ones: for examples and tests.
//!
//! ```
//! use yestrwyn_vectors::sketch::{app, neg, pos, var, Sketch};
//!
//! let mut file = Sketch::new();
//! let [even, next, zero] = [1, 1, 0].map(|arity| file.symbol(arity));
//! let two = app(next, [app(next, [app(zero, [])])]);
//! let start = file.clause(&[pos(app(even, [app(zero, [])]))]);
//! let rule = file.clause(&[
//!     neg(app(even, [var(0)])),
//!     pos(app(even, [app(next, [app(next, [var(0)])])])),
//! ]);
//! let goal = file.clause(&[neg(app(even, [two]))]);
//! let derived = file.resolve(start, 1, rule, 1); // +even(next(next(zero)))
//! let empty = file.resolve(derived, 1, goal, 1); // no literals: the goal is refuted
//! assert_eq!(empty, 4);
//! ```
//!
//! Everything is named by plain numbers and nothing is tested, so that any file can be written, also
//! one that will be refused; [`Sketch::raw`] writes any record whatever. Authors of planners want
//! the package `yestrwyn-builder` instead. Numbers returned are right as long as every record stands.

use std::collections::HashMap;

use yestrwyn_types::limits::RECORD_BYTES;
use yestrwyn_types::record::{kind, Record};

/// One place of a term in postfix order: arguments come before what is applied to them.
#[derive(Clone, Copy, PartialEq, Eq, Debug)]
enum Item {
    Variable(u16),
    Symbol(u16, u8),
}

/// A term, kept flat in postfix order, so that deeply nested terms need no deep recursion.
#[derive(Clone, PartialEq, Eq, Debug)]
pub struct Term(Vec<Item>);

/// The variable with a number, 0 to 63.
pub fn var(number: u16) -> Term {
    Term(vec![Item::Variable(number)])
}

/// A symbol applied to arguments; a constant has none. Arguments past the 255th are dropped.
pub fn app<const N: usize>(symbol: u16, arguments: [Term; N]) -> Term {
    apply(symbol, &arguments)
}

/// The same for a list of arguments whose length is not known beforehand.
pub fn apply(symbol: u16, arguments: &[Term]) -> Term {
    let mut items = Vec::new();
    let mut count = 0;
    for argument in arguments.iter().take(usize::from(u8::MAX)) {
        items.extend_from_slice(&argument.0);
        count += 1;
    }
    items.push(Item::Symbol(symbol, count));
    Term(items)
}

/// A literal: true for positive, and the atom.
pub type SignedTerm = (bool, Term);

/// A positive literal.
pub fn pos(atom: Term) -> SignedTerm {
    (true, atom)
}

/// A negative literal.
pub fn neg(atom: Term) -> SignedTerm {
    (false, atom)
}

/// A file under construction.
#[derive(Clone, Default)]
pub struct Sketch {
    bytes: Vec<u8>,
    symbols: usize,
    clauses: usize,
    rows: usize,
    shared: HashMap<Record, u16>,
}

impl Sketch {
    /// An empty file.
    pub fn new() -> Sketch {
        Sketch::default()
    }

    /// The bytes of the file.
    pub fn finish(self) -> Vec<u8> {
        self.bytes
    }

    /// The bytes so far.
    pub fn bytes(&self) -> &[u8] {
        &self.bytes
    }

    /// The number that the next record will have.
    pub fn records(&self) -> u16 {
        number(self.bytes.len() / RECORD_BYTES)
    }

    /// Writes any record and returns its own number among symbols, rows or clauses
    /// (the record number for a window, or a kind that does not exist). Equal rows are written again.
    pub fn raw(&mut self, record: Record) -> u16 {
        let at = self.records();
        self.bytes.extend_from_slice(&record.to_bytes());
        let counter = match record.kind {
            kind::SYMBOL => &mut self.symbols,
            kind::VARIABLE | kind::APPLICATION => &mut self.rows,
            kind::INPUT | kind::RESOLVE | kind::FACTOR | kind::RESOLVE_SEVERAL => &mut self.clauses,
            _ => return at,
        };
        let own = number(*counter);
        *counter += 1;
        if matches!(record.kind, kind::VARIABLE | kind::APPLICATION) {
            self.shared.entry(record).or_insert(own);
        }
        own
    }

    /// Has a row with the same bytes been written?
    pub fn has_row(&self, record: &Record) -> bool {
        self.shared.contains_key(record)
    }

    /// A record of some kind with the fields given from `a` on and zeros after them.
    pub fn fields(&mut self, kind: u8, count: u8, given: &[u16]) -> u16 {
        self.raw(Record::new(kind, count, given))
    }

    /// A symbol of an arity, 0 to 6; returns its symbol number.
    pub fn symbol(&mut self, arity: u8) -> u16 {
        self.fields(kind::SYMBOL, arity, &[])
    }

    /// The row of a variable, written on first use.
    pub fn variable(&mut self, variable: u16) -> u16 {
        self.row(kind::VARIABLE, 0, &[variable])
    }

    /// The row of a symbol applied to rows, written on first use.
    pub fn application(&mut self, symbol: u16, arguments: &[u16]) -> u16 {
        let given: Vec<u16> = std::iter::once(symbol).chain(arguments.iter().copied()).collect();
        let count = u8::try_from(arguments.len()).unwrap_or(u8::MAX);
        self.row(kind::APPLICATION, count, &given)
    }

    /// The row of a term; rows for its parts are written where they do not exist yet.
    pub fn term(&mut self, term: &Term) -> u16 {
        let mut stack: Vec<u16> = Vec::new();
        for item in &term.0 {
            let row = match *item {
                Item::Variable(variable) => self.variable(variable),
                Item::Symbol(symbol, count) => {
                    let first = stack.len().saturating_sub(usize::from(count));
                    let arguments = stack.split_off(first);
                    self.application(symbol, &arguments)
                }
            };
            stack.push(row);
        }
        stack.pop().unwrap_or(0)
    }

    /// An input clause of up to seven literals; returns its clause number.
    pub fn clause(&mut self, literals: &[SignedTerm]) -> u16 {
        let rows: Vec<(bool, u16)> =
            literals.iter().map(|(positive, atom)| (*positive, self.term(atom))).collect();
        self.clause_of_rows(&rows)
    }

    /// An input clause whose atoms are given as rows; returns its clause number.
    pub fn clause_of_rows(&mut self, literals: &[(bool, u16)]) -> u16 {
        let codes: Vec<u16> =
            literals.iter().map(|&(positive, row)| row.wrapping_mul(2) | u16::from(positive)).collect();
        self.fields(kind::INPUT, u8::try_from(codes.len()).unwrap_or(u8::MAX), &codes)
    }

    /// A resolution step on literals (numbered from 1) of two clauses; returns its clause number.
    pub fn resolve(&mut self, left: u16, left_literal: u16, right: u16, right_literal: u16) -> u16 {
        self.fields(kind::RESOLVE, 0, &[left, left_literal, right, right_literal])
    }

    /// A factoring step that keeps one literal and deletes another; returns its clause number.
    pub fn factor(&mut self, clause: u16, kept: u16, deleted: u16) -> u16 {
        self.fields(kind::FACTOR, 0, &[clause, kept, deleted])
    }

    /// A resolution step on a left literal and a list of right ones; returns its clause number.
    pub fn resolve_several(
        &mut self,
        left: u16,
        left_literal: u16,
        right: u16,
        right_literals: &[u16],
    ) -> u16 {
        let given = [&[left, left_literal, right], right_literals].concat();
        let count = u8::try_from(right_literals.len()).unwrap_or(u8::MAX);
        self.fields(kind::RESOLVE_SEVERAL, count, &given)
    }

    /// The first and last day on which an input clause is in force.
    pub fn window(&mut self, clause: u16, first: u16, last: u16) {
        self.fields(kind::WINDOW, 0, &[clause, first, last]);
    }

    /// An equal row if there is one, otherwise a new one.
    fn row(&mut self, kind: u8, count: u8, given: &[u16]) -> u16 {
        let record = Record::new(kind, count, given);
        match self.shared.get(&record) {
            Some(&row) => row,
            None => self.raw(record),
        }
    }
}

/// A count as a number in a record; files with more are too long to stand.
fn number(count: usize) -> u16 {
    u16::try_from(count).unwrap_or(u16::MAX)
}
