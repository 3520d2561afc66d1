//! Random files from a seed: mostly meaningful ones, and damage to them.

mod several;

use yestrwyn_second::checker::Checker;
use yestrwyn_second::clause::literal;
use yestrwyn_types::limits::RECORDS;
use yestrwyn_types::record::{kind, Record};
use yestrwyn_types::{Form, Reason};

use crate::alone::unification_alone;
use crate::sketch::Sketch;

pub use several::{several_file, several_file_of};

/// The generator SplitMix64: equal seeds give equal numbers everywhere.
#[derive(Clone, Debug)]
pub struct SplitMix64(u64);

impl SplitMix64 {
    /// A generator that starts from a seed.
    pub fn new(seed: u64) -> SplitMix64 {
        SplitMix64(seed)
    }

    /// The next 64 bits.
    pub fn next_u64(&mut self) -> u64 {
        self.0 = self.0.wrapping_add(0x9e37_79b9_7f4a_7c15);
        let mut z = self.0;
        z = (z ^ (z >> 30)).wrapping_mul(0xbf58_476d_1ce4_e5b9);
        z = (z ^ (z >> 27)).wrapping_mul(0x94d0_49bb_1331_11eb);
        z ^ (z >> 31)
    }

    /// A number below `bound`, or 0 if the bound is 0.
    pub fn below(&mut self, bound: usize) -> usize {
        let drawn = (self.next_u64() >> 32) as usize;
        drawn.checked_rem(bound).unwrap_or(0)
    }

    /// A number from `low` to `high`, both included.
    pub fn between(&mut self, low: usize, high: usize) -> usize {
        low.saturating_add(self.below(high.saturating_sub(low).saturating_add(1)))
    }

    /// True once in `n` times.
    pub fn one_in(&mut self, n: usize) -> bool {
        self.below(n) == 0
    }
}

/// A random file of 5 to 60 records: few symbols, small terms, short clauses, and steps on literals
/// of fitting signs. Most steps stand; some files end in a refused one, and many are accepted.
pub fn random_file(seed: u64) -> Vec<u8> {
    let mut random = SplitMix64::new(seed);
    let records = random.between(5, 60);
    make(random, records, false)
}

/// The same with a number of records to aim at, up to 4,096. Longer files have more symbols and rows.
pub fn random_file_of(seed: u64, records: usize) -> Vec<u8> {
    make(SplitMix64::new(seed), records.min(RECORDS), false)
}

/// Writes a file in the usual order: symbols, rows, clauses, then steps with a few others between. Are there steps
/// on several right literals among them, and clauses that these can be made of?
fn make(random: SplitMix64, wanted: usize, several: bool) -> Vec<u8> {
    let mut maker = Maker::new(random, wanted, several);
    maker.symbols();
    maker.rows();
    maker.clauses();
    maker.steps();
    maker.file.finish()
}

/// A file under construction, with a checker that has read the same records.
struct Maker {
    random: SplitMix64,
    file: Sketch,
    checker: Checker,
    wanted: usize,
    several: bool,
    predicates: Vec<(u16, u8)>,
    functions: Vec<(u16, u8)>,
    atoms: Vec<u16>,
    terms: Vec<u16>,
    /// Is all that comes now written, whether it stands or not?
    careless: bool,
}

impl Maker {
    fn new(random: SplitMix64, wanted: usize, several: bool) -> Maker {
        Maker {
            random,
            file: Sketch::new(),
            checker: Checker::new(),
            wanted,
            several,
            predicates: Vec::new(),
            functions: Vec::new(),
            atoms: Vec::new(),
            terms: Vec::new(),
            careless: false,
        }
    }

    /// Room for another record?
    fn room(&self) -> bool {
        usize::from(self.file.records()) < self.wanted
    }

    /// Should a record be written that is refused, or a row again? Once in `n` times; in long files much more seldom.
    fn keep(&mut self, n: usize) -> bool {
        self.random.one_in(if self.wanted > 60 { n * self.wanted } else { n })
    }

    /// Writes a record if it stands and is no row that is there already. Any other is written only if `keep`, or at
    /// times if a variable would have occurred in its own value; it ends the part of the file that is looked
    /// after, and all that comes after it is written.
    fn write(&mut self, kind: u8, count: u8, given: &[u16], keep: bool) -> Option<u16> {
        let record = Record::new(kind, count, given);
        let again = self.file.has_row(&record);
        if again && !keep && !self.careless {
            return None;
        }
        let result = self.checker.record(&record.to_bytes());
        if result.is_ok() && !again && !self.careless {
            return Some(self.file.raw(record));
        }
        if keep || self.careless || (self.occurs(&record, result) && self.keep(4)) {
            self.careless = true;
            self.file.raw(record);
        }
        None
    }

    /// Does a variable occur in its own value, also where the step is refused because its outlines clash?
    fn occurs(&self, record: &Record, result: Result<(), Reason>) -> bool {
        match result {
            Err(Reason::Occurs) => true,
            Err(Reason::Clash) => unification_alone(&self.checker, record) == Some(Err(Reason::Occurs)),
            _ => false,
        }
    }

    /// One to three predicates, one to four functions, mostly of small arity.
    fn symbols(&mut self) {
        let predicates = self.random.between(1, 3);
        let functions = self.random.between(1, if self.wanted < 12 { 1 } else { 4 });
        for place in 0..predicates + functions {
            let arity = match self.random.below(12) {
                0 => 0,
                1..=5 => 1,
                6..=9 => 2,
                10 => 3,
                _ => self.random.between(4, 6) as u8,
            };
            let arity = if place == predicates { 0 } else { arity };
            let Some(symbol) = self.write(kind::SYMBOL, arity, &[], false) else { continue };
            if place < predicates {
                self.predicates.push((symbol, arity));
            } else {
                self.functions.push((symbol, arity));
            }
        }
    }

    /// Some variables and terms, then some atoms.
    fn rows(&mut self) {
        let (fewest, most) = if self.wanted < 12 { (0, 1) } else { (1, 4 + self.wanted / 30) };
        for _ in 0..self.random.between(fewest, most) {
            let variable = if self.random.one_in(10) {
                self.random.between(60, 63)
            } else {
                self.random.below(4 + self.wanted / 20)
            };
            let row = self.write(kind::VARIABLE, 0, &[variable as u16], false);
            self.terms.extend(row);
        }
        for _ in 0..self.random.between(1, self.wanted / 7 + 1) {
            self.term();
        }
        for _ in 0..self.random.between(1, self.wanted / 6 + 1) {
            self.atom();
        }
    }

    /// A row that is a function applied to earlier terms.
    fn term(&mut self) {
        let which = self.random.below(self.functions.len());
        let Some(&(symbol, arity)) = self.functions.get(which) else { return };
        let row = self.application(symbol, arity);
        self.terms.extend(row);
    }

    /// A row that is a predicate applied to earlier terms; seldom an atom serves as a term too.
    fn atom(&mut self) {
        let which = self.random.below(self.predicates.len());
        let Some(&(symbol, arity)) = self.predicates.get(which) else { return };
        let row = self.application(symbol, arity);
        self.atoms.extend(row);
        if self.random.one_in(20) {
            self.terms.extend(row);
        }
    }

    /// A symbol applied to terms drawn at random, the later ones a little more often.
    fn application(&mut self, symbol: u16, arity: u8) -> Option<u16> {
        if !self.room() || (self.terms.is_empty() && arity > 0) {
            return None;
        }
        let mut given = vec![symbol];
        for _ in 0..arity {
            let drawn = self.random.below(self.terms.len()).max(self.random.below(self.terms.len()));
            given.extend(self.terms.get(drawn));
        }
        let keep = self.keep(400);
        self.write(kind::APPLICATION, arity, &given, keep)
    }

    /// Two to nine input clauses.
    fn clauses(&mut self) {
        for _ in 0..self.random.between(2, self.wanted / 8 + 2) {
            self.clause();
        }
    }

    /// An input clause of mostly one to three literals, seldom none or seven.
    fn clause(&mut self) {
        if !self.room() || self.atoms.is_empty() {
            return;
        }
        let count = match self.random.below(40) {
            0..=13 => 1,
            14..=29 => 2,
            30..=35 => 3,
            36..=38 => self.random.between(4, 7),
            _ => usize::from(!self.random.one_in(4)),
        };
        let mut codes: Vec<u16> = (0..count).map(|_| self.code()).collect();
        if self.several {
            self.more_alike(&mut codes);
        }
        self.write(kind::INPUT, codes.len() as u8, &codes, false);
    }

    /// A literal's code: some atom with some sign.
    fn code(&mut self) -> u16 {
        let drawn = self.random.below(self.atoms.len());
        let row = self.atoms.get(drawn).copied().unwrap_or(0);
        2 * row + self.random.below(2) as u16
    }

    /// Steps until the file is as long as wanted, with a few rows and clauses between them.
    fn steps(&mut self) {
        let mut tries = 0;
        while self.room() && tries < 100 * self.wanted {
            tries += 1;
            match self.random.below(40) {
                0 => self.term(),
                1 => self.atom(),
                2 | 3 => self.clause(),
                4..=9 => self.factor(),
                10..=24 if self.several => self.resolve_several(),
                _ => self.resolve(),
            }
        }
    }

    /// A resolve step: of some pairs of fitting literals, the one with the shortest result.
    fn resolve(&mut self) {
        let clauses = self.checker.clauses().len();
        let mut best: Option<(u16, [u16; 4])> = None;
        for _ in 0..self.random.between(1, 6) {
            let step = [self.random.below(clauses), self.random.below(clauses)].map(|clause| clause as u16);
            let (b, d) = (self.literal_of(step[0]), self.literal_of(step[1]));
            let given = [step[0], b, step[1], d];
            let Some(length) = self.resolvent_length(given) else { continue };
            if best.is_none_or(|(shortest, _)| length < shortest) {
                best = Some((length, given));
            }
        }
        let keep = self.keep(60);
        if let Some((_, given)) = best {
            self.write(kind::RESOLVE, 0, &given, keep);
        }
    }

    /// A factor step on two literals of a clause.
    fn factor(&mut self) {
        let clause = self.random.below(self.checker.clauses().len()) as u16;
        let given = [clause, self.literal_of(clause), self.literal_of(clause)];
        let fits = given[1] != given[2] && self.sign(clause, given[1]) == self.sign(clause, given[2]);
        let keep = self.keep(60);
        if fits || self.random.one_in(200) {
            self.write(kind::FACTOR, 0, &given, keep);
        }
    }

    /// The number of some literal of a clause, or 0 if it has none.
    fn literal_of(&mut self, clause: u16) -> u16 {
        let count = self.checker.clauses().get(usize::from(clause)).map_or(0, |clause| clause.literals);
        if count == 0 {
            return 0;
        }
        1 + self.random.below(usize::from(count)) as u16
    }

    /// The sign of a literal of a clause.
    fn sign(&self, clause: u16, number: u16) -> Option<bool> {
        literal(self.checker.clauses(), clause, number).map(|literal| literal.positive)
    }

    /// How many literals a resolvent would have, if the signs fit.
    fn resolvent_length(&self, [a, b, c, d]: [u16; 4]) -> Option<u16> {
        let (left, right) = (self.sign(a, b)?, self.sign(c, d)?);
        let clauses = self.checker.clauses();
        let length = clauses.get(usize::from(a))?.literals + clauses.get(usize::from(c))?.literals;
        (left != right).then_some(length)
    }
}

/// A copy of a file with one or two pieces of damage: altered bytes or fields, records moved,
/// repeated, dropped or put in, or a length that is no multiple of a record's.
pub fn damage(file: &[u8], seed: u64) -> Vec<u8> {
    damage_form(Form::Old, file, seed)
}

/// The same for a file of either form.
pub fn damage_form(form: Form, file: &[u8], seed: u64) -> Vec<u8> {
    let mut random = SplitMix64::new(seed ^ 0x5eed_da3a_6e00_0001);
    let mut bytes = file.to_vec();
    for _ in 0..1 + random.below(4) / 3 {
        damage_once(&mut bytes, form.record_bytes(), &mut random);
    }
    bytes
}

/// One piece of damage, to a file with records of so many bytes.
fn damage_once(bytes: &mut Vec<u8>, width: usize, random: &mut SplitMix64) {
    let at = random.below(bytes.len());
    let record = at / width * width;
    let whole = record..(record + width).min(bytes.len());
    match random.below(24) {
        0 => bytes.truncate(at),
        1 => drop(bytes.drain(whole)),
        2 | 3 => {
            let copy = bytes.get(whole).unwrap_or(&[]).to_vec();
            bytes.extend_from_slice(&copy);
        }
        4 => {
            let drawn: Vec<u8> = (0..width).map(|_| random.below(256) as u8).collect();
            bytes.splice(record..record, drawn);
        }
        5 => swap_with_next(bytes, width, record),
        6..=9 => set(bytes, at, random.below(256) as u8),
        10 => set(bytes, record, random.below(9) as u8),
        11 | 12 => set(bytes, record + 1, random.below(9) as u8),
        13 => {
            let old = bytes.get(at).copied().unwrap_or(0);
            set(bytes, at, old ^ (1 << random.below(8)));
        }
        _ => set(bytes, record + 2 + 2 * random.below(width / 2 - 1), random.below(12) as u8),
    }
}

/// Writes a byte if it is inside.
fn set(bytes: &mut [u8], at: usize, value: u8) {
    if let Some(byte) = bytes.get_mut(at) {
        *byte = value;
    }
}

/// Exchanges the record that starts at `record` with the one after it.
fn swap_with_next(bytes: &mut [u8], width: usize, record: usize) {
    for place in record..record + width {
        if place + width < bytes.len() {
            bytes.swap(place, place + width);
        }
    }
}
