//! Random files of input clauses made to be compared with one another: which covers which. Some are instances of earlier
//! ones, with literals in another order, more of them or fewer, and often with something in them spoiled; some have deep
//! terms whose parts are shared.

use yestrwyn_second::check;
use yestrwyn_types::limits::INPUT_LITERALS;
use yestrwyn_types::record::kind;
use yestrwyn_types::Verdict;

use crate::random::SplitMix64;
use crate::sketch::Sketch;

/// The literals of a clause: sign and row.
type Literals = Vec<(bool, u16)>;

/// Once so many records are written, no more clauses are made of earlier ones.
const ENOUGH: u16 = 2500;
/// Variable numbers in use.
const VARIABLES: usize = 6;

/// The file of a seed: of some dozens of records, or with deep terms of up to some thousands. Few files have a derived
/// clause at their end, and few a record that is refused.
pub fn covering_file(seed: u64) -> Vec<u8> {
    let mut clauses = Clauses::new(seed);
    clauses.terms();
    for _ in 0..clauses.random.between(1, 3) {
        clauses.drawn();
    }
    for _ in 0..clauses.random.between(1, 5) {
        if clauses.file.records() < ENOUGH {
            clauses.related();
        }
    }
    clauses.ending();
    clauses.file.finish()
}

/// What a row is, as far as it matters here.
#[derive(Clone)]
enum Row {
    Variable(usize),
    Application(u16, Vec<u16>),
}

/// A file under construction.
struct Clauses {
    random: SplitMix64,
    file: Sketch,
    rows: Vec<Row>,
    /// Symbols with their arities: those of atoms, and those of terms, of which the first is a constant.
    predicates: Vec<(u16, usize)>,
    functions: Vec<(u16, usize)>,
    /// Rows of terms to draw from.
    terms: Vec<u16>,
    clauses: Vec<Literals>,
}

impl Clauses {
    /// One or two predicates, so that many literals can become many, and a few functions.
    fn new(seed: u64) -> Clauses {
        let mut random = SplitMix64::new(seed ^ 0xc0ef_e2ed_0000_0000);
        let mut file = Sketch::new();
        let [predicates, functions] = [random.between(1, 2), random.between(2, 4)];
        let mut symbol = |place: usize, arity: usize| {
            let arity = if place == predicates { 0 } else { arity };
            (file.symbol(arity as u8), arity)
        };
        let mut all: Vec<(u16, usize)> =
            (0..predicates).map(|place| symbol(place, [2, 2, 2, 1, 3, 6][random.below(6)])).collect();
        all.extend((predicates..predicates + functions).map(|place| symbol(place, random.below(3))));
        let functions = all.split_off(predicates);
        let (rows, terms, clauses) = (Vec::new(), Vec::new(), Vec::new());
        Clauses { random, file, rows, predicates: all, functions, terms, clauses }
    }

    /// The row of a variable, written on first use.
    fn variable(&mut self, number: usize) -> u16 {
        let row = self.file.variable(number as u16);
        self.known(row, Row::Variable(number))
    }

    /// The row of an application, written on first use.
    fn application(&mut self, symbol: u16, arguments: &[u16]) -> u16 {
        let row = self.file.application(symbol, arguments);
        self.known(row, Row::Application(symbol, arguments.to_vec()))
    }

    /// Keeps what a row is, if it is new.
    fn known(&mut self, row: u16, what: Row) -> u16 {
        if usize::from(row) == self.rows.len() {
            self.rows.push(what);
        }
        row
    }

    /// Some variables, the constant, small terms, and in one of five files a deep one.
    fn terms(&mut self) {
        for number in 0..self.random.between(1, 4) {
            let row = self.variable(number);
            self.terms.push(row);
        }
        let constant = self.application(self.functions[0].0, &[]);
        self.terms.push(constant);
        for _ in 0..self.random.below(6) {
            let (symbol, arity) = self.functions[self.random.below(self.functions.len())];
            let row = self.applied(symbol, arity);
            self.terms.push(row);
        }
        if self.random.one_in(5) {
            let row = self.deep();
            self.terms.push(row);
        }
    }

    /// A symbol applied to terms drawn at random.
    fn applied(&mut self, symbol: u16, arity: usize) -> u16 {
        let arguments: Vec<u16> = (0..arity).map(|_| self.term()).collect();
        self.application(symbol, &arguments)
    }

    fn term(&mut self) -> u16 {
        self.terms[self.random.below(self.terms.len())]
    }

    /// A term that doubles at each of many levels: both arguments are the level below, at times with a term drawn at random
    /// for one of them.
    fn deep(&mut self) -> u16 {
        let double = self.file.symbol(2);
        self.functions.push((double, 2));
        let mut row = self.term();
        for _ in 0..self.random.between(20, 400) {
            let mut arguments = [row; 2];
            if self.random.one_in(40) {
                let side = self.random.below(2);
                arguments[side] = self.term();
            }
            row = self.application(double, &arguments);
        }
        row
    }

    /// A clause of literals drawn at random: mostly two to four, seldom none or seven.
    fn drawn(&mut self) {
        let count = match self.random.below(20) {
            0 => 0,
            1..=3 => 1,
            4..=15 => self.random.between(2, 4),
            _ => self.random.between(5, 7),
        };
        let literals = (0..count).map(|_| self.literal()).collect();
        self.clause(literals);
    }

    /// A literal; three of four are positive, so that many have the same sign.
    fn literal(&mut self) -> (bool, u16) {
        let (symbol, arity) = self.predicates[self.random.below(self.predicates.len())];
        (!self.random.one_in(4), self.applied(symbol, arity))
    }

    /// Writes a clause. In one of eight its last atom is written again as a row of its own.
    fn clause(&mut self, literals: Literals) {
        let mut written = literals.clone();
        if self.random.one_in(8) {
            if let Some((_, row)) = written.last_mut() {
                *row = self.again(*row);
            }
        }
        self.file.clause_of_rows(&written);
        self.clauses.push(literals);
    }

    /// An equal row with another number.
    fn again(&mut self, row: u16) -> u16 {
        let what = self.rows[usize::from(row)].clone();
        let Row::Application(symbol, arguments) = &what else { return row };
        let given = [&[*symbol], arguments.as_slice()].concat();
        self.rows.push(what.clone());
        self.file.fields(kind::APPLICATION, arguments.len() as u8, &given)
    }

    /// A clause made of an earlier one: its variables replaced, literals added, doubled, left out or spoiled, and their
    /// order altered.
    fn related(&mut self) {
        let which = self.random.below(self.clauses.len());
        let renaming = self.random.one_in(4);
        let values: Vec<u16> = (0..VARIABLES).map(|number| self.value(number, renaming)).collect();
        let earlier = self.clauses[which].clone();
        let mut literals: Literals =
            earlier.into_iter().map(|(sign, row)| (sign, self.instance(row, &values))).collect();
        for _ in 0..self.random.below(4) {
            self.alter(&mut literals);
        }
        literals.truncate(usize::from(INPUT_LITERALS));
        for end in (1..literals.len()).rev() {
            if !self.random.one_in(3) {
                literals.swap(end, self.random.below(end + 1));
            }
        }
        self.clause(literals);
    }

    /// What is put for a variable: a term, or in a renaming the variable that comes after it.
    fn value(&mut self, number: usize, renaming: bool) -> u16 {
        if renaming {
            return self.variable((number + 1) % VARIABLES);
        }
        match self.random.below(3) {
            0 => self.variable(number),
            _ => self.term(),
        }
    }

    /// One alteration of a clause: mostly a literal more, at times one less, one again, one of another sign, or one with
    /// another argument.
    fn alter(&mut self, literals: &mut Literals) {
        let place = self.random.below(literals.len());
        match self.random.below(8) {
            0 if !literals.is_empty() => drop(literals.remove(place)),
            1 if !literals.is_empty() => literals.push(literals[place]),
            2 if !literals.is_empty() => literals[place].0 ^= true,
            3 | 4 if !literals.is_empty() => literals[place].1 = self.other_argument(literals[place].1),
            _ => literals.push(self.literal()),
        }
    }

    /// An atom with one argument drawn anew.
    fn other_argument(&mut self, row: u16) -> u16 {
        let Row::Application(symbol, mut arguments) = self.rows[usize::from(row)].clone() else { return row };
        let place = self.random.below(arguments.len());
        if !arguments.is_empty() {
            arguments[place] = self.term();
        }
        self.application(symbol, &arguments)
    }

    /// The row of a term with values put for its variables, made from its smallest parts on: a row names only earlier ones.
    fn instance(&mut self, row: u16, values: &[u16]) -> u16 {
        let top = usize::from(row);
        let mut used = vec![false; top + 1];
        used[top] = true;
        for at in (0..=top).rev() {
            if let (true, Row::Application(_, arguments)) = (used[at], &self.rows[at]) {
                arguments.iter().for_each(|&argument| used[usize::from(argument)] = true);
            }
        }
        let mut images = vec![0; top + 1];
        for at in (0..=top).filter(|&at| used[at]) {
            images[at] = match self.rows[at].clone() {
                Row::Variable(number) => values[number],
                Row::Application(symbol, arguments) => {
                    let arguments: Vec<u16> = arguments.iter().map(|&row| images[usize::from(row)]).collect();
                    self.application(symbol, &arguments)
                }
            };
        }
        images[top]
    }

    /// In one of eight files a derived clause, if some step stands; in one of twenty a record that is refused.
    fn ending(&mut self) {
        if self.random.one_in(8) {
            let steps: Vec<Sketch> = (0..20).map(|_| self.with_step()).collect();
            let standing =
                |file: &&Sketch| !matches!(check(0, file.bytes()).verdict, Verdict::Refused { .. });
            if let Some(file) = steps.iter().find(standing) {
                self.file = file.clone();
            }
        }
        if self.random.one_in(20) {
            self.file.fields(0, 0, &[]);
        }
    }

    /// The file with some step at its end, which may be a wrong one.
    fn with_step(&mut self) -> Sketch {
        let [left, right] = [0; 2].map(|_| self.random.below(self.clauses.len()));
        let [b, d] = [left, right].map(|clause| 1 + self.random.below(self.clauses[clause].len()) as u16);
        let mut file = self.file.clone();
        file.resolve(left as u16, b, right as u16, d);
        file
    }
}
