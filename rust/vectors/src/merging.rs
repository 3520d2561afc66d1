//! Random pairs of files made to be merged: symbols of one list, of which either file has a beginning, rows that repeat within
//! a file and across both, and windows that supersede one another. Some pairs hold a step, symbols that differ, a record that
//! is refused, or as many records as a merged file can have.

use yestrwyn_types::limits::RECORDS;
use yestrwyn_types::record::kind;

use crate::random::SplitMix64;
use crate::sketch::Sketch;

/// Variable numbers in use: few, so that rows repeat.
const VARIABLES: usize = 3;
/// Most symbols of a file, but for those that fill it.
const SYMBOLS: usize = 7;
/// Most records of a file, but for those that fill it.
const SMALL: usize = 30;

/// The two files of a seed, mostly of some dozens of records together, at times of some 4,096.
pub fn merging_files(seed: u64) -> [Vec<u8>; 2] {
    let mut random = SplitMix64::new(seed ^ 0x3e26_e000_0000_0000);
    let mut parts = symbol_lists(&mut random).map(|arities| Part::new(random.next_u64(), arities));
    for part in &mut parts {
        part.records();
    }
    if random.one_in(12) {
        fill(&mut random, &mut parts);
    }
    for part in &mut parts {
        match random.below(24) {
            0 | 1 => part.step(),
            2 => part.refused(),
            _ => {}
        }
    }
    parts.map(|part| part.file.finish())
}

/// The arities of the symbols of both files: mostly two beginnings of one list, at times with one that differs.
fn symbol_lists(random: &mut SplitMix64) -> [Vec<u8>; 2] {
    let longest = random.below(SYMBOLS + 1);
    let list: Vec<u8> = (0..longest).map(|_| [0, 1, 1, 2, 2, 3, 6][random.below(7)]).collect();
    let shorter = if random.one_in(3) { longest } else { random.below(longest + 1) };
    let mut lists = [list.clone(), list[..shorter].to_vec()];
    if random.one_in(2) {
        lists.reverse();
    }
    if random.one_in(8) {
        let place = random.below(longest);
        if let Some(arity) = lists[1].get_mut(place) {
            *arity = (*arity + 1 + random.below(5) as u8) % 7;
        }
    }
    lists
}

/// Fills one file or both with records, so that the merged file has about as many as it can have.
fn fill(random: &mut SplitMix64, parts: &mut [Part; 2]) {
    let [first, second] = parts;
    let common = first.arities.len().min(second.arities.len());
    let records = usize::from(first.file.records()) + usize::from(second.file.records()) - common;
    let wanted = RECORDS - 2 + random.below(5);
    let room = RECORDS - usize::from(first.file.records());
    let more = wanted.saturating_sub(records);
    let of_first = match random.below(3) {
        0 => more.min(room),
        1 => 0,
        _ => random.below(more.min(room)),
    };
    first.rows_again(of_first);
    let room = RECORDS - usize::from(second.file.records());
    second.rows_again((more - of_first).min(room));
}

/// One of the two files, under construction.
struct Part {
    random: SplitMix64,
    file: Sketch,
    /// The arities of all symbols, of which so many are written.
    arities: Vec<u8>,
    symbols: usize,
    /// For each row whether it is an application, so that a literal can be on it.
    rows: Vec<bool>,
    clauses: usize,
}

impl Part {
    /// An empty file that is to have symbols of these arities.
    fn new(seed: u64, arities: Vec<u8>) -> Part {
        let (random, file) = (SplitMix64::new(seed), Sketch::new());
        Part { random, file, arities, symbols: 0, rows: Vec::new(), clauses: 0 }
    }

    /// Records of all kinds but steps, in any order, and all symbols. One file in ten has symbols alone, or nothing; half of
    /// them begin with their symbols and a few rows.
    fn records(&mut self) {
        let wanted = if self.random.one_in(10) { 0 } else { self.random.between(1, SMALL) };
        if self.random.one_in(2) {
            self.all_symbols();
            for _ in 0..wanted / 4 {
                self.variable();
                self.application();
            }
        }
        for _ in 0..wanted {
            match self.random.below(16) {
                0..=2 => self.symbol(),
                3 | 4 => self.variable(),
                5..=9 => self.application(),
                10..=12 => self.clause(),
                _ => self.window(),
            }
        }
        self.all_symbols();
        // The last records name symbols past those of the other file, if there are any.
        for _ in 0..wanted / 8 {
            self.application();
            self.clause();
            self.window();
        }
    }

    /// The next symbol, if there is one.
    fn symbol(&mut self) {
        if let Some(&arity) = self.arities.get(self.symbols) {
            self.file.symbol(arity);
            self.symbols += 1;
        }
    }

    /// All symbols that are not written yet.
    fn all_symbols(&mut self) {
        while self.symbols < self.arities.len() {
            self.symbol();
        }
    }

    /// A variable, also one that is there already.
    fn variable(&mut self) {
        let number = if self.random.one_in(20) { 63 } else { self.random.below(VARIABLES) };
        self.file.fields(kind::VARIABLE, 0, &[number as u16]);
        self.rows.push(false);
    }

    /// An application of a symbol that is there to rows that are, also one that is there already.
    fn application(&mut self) {
        let symbol = self.random.below(self.symbols);
        let Some(&arity) = self.arities[..self.symbols].get(symbol) else { return };
        if arity > 0 && self.rows.is_empty() {
            return;
        }
        let mut given = vec![symbol as u16];
        given.extend((0..arity).map(|_| self.random.below(self.rows.len()) as u16));
        self.file.fields(kind::APPLICATION, arity, &given);
        self.rows.push(true);
    }

    /// The row of some application.
    fn atom(&mut self) -> Option<u16> {
        let atoms: Vec<usize> = (0..self.rows.len()).filter(|&row| self.rows[row]).collect();
        atoms.get(self.random.below(atoms.len())).map(|&row| row as u16)
    }

    /// An input clause of mostly one to three literals, seldom of none or of seven.
    fn clause(&mut self) {
        let count = match self.random.below(12) {
            0 => 0,
            1 => 7,
            drawn => 1 + drawn % 3,
        };
        let literals: Option<Vec<(bool, u16)>> =
            (0..count).map(|_| Some((self.random.one_in(2), self.atom()?))).collect();
        if let Some(literals) = literals {
            self.file.clause_of_rows(&literals);
            self.clauses += 1;
        }
    }

    /// The days of some clause, few enough clauses that many get days twice.
    fn window(&mut self) {
        if self.clauses > 0 {
            let clause = self.random.below(self.clauses) as u16;
            let first = self.random.below(12) as u16;
            let last = if self.random.one_in(6) { u16::MAX } else { first + self.random.below(8) as u16 };
            self.file.window(clause, first, last);
        }
    }

    /// So many rows more, each of which repeats an earlier one or another of them, with clauses on them in between.
    fn rows_again(&mut self, count: usize) {
        for place in 0..count {
            match place % 64 {
                62 => self.window_or_variable(),
                63 if self.rows.iter().any(|&application| application) => self.clause_on_the_last(),
                _ => self.variable(),
            }
        }
    }

    /// A window if there is a clause, otherwise a variable.
    fn window_or_variable(&mut self) {
        if self.clauses > 0 {
            self.window();
        } else {
            self.variable();
        }
    }

    /// A clause on the last application.
    fn clause_on_the_last(&mut self) {
        let last = self.rows.iter().rposition(|&application| application).unwrap_or(0);
        self.file.clause_of_rows(&[(true, last as u16)]);
        self.clauses += 1;
    }

    /// A step that stands, of one of three kinds, and at times another after it.
    fn step(&mut self) {
        let Some(atom) = self.atom() else { return };
        let twice = self.file.clause_of_rows(&[(true, atom), (true, atom)]);
        let other = self.file.clause_of_rows(&[(false, atom)]);
        let made = match self.random.below(3) {
            0 => self.file.resolve(twice, 1, other, 1),
            1 => self.file.factor(twice, 2, 1),
            _ => self.file.resolve_several(other, 1, twice, &[1, 2]),
        };
        if self.random.one_in(2) {
            self.file.resolve(twice, 2, other, 1);
            self.file.window(twice, 1, 2);
        }
        self.clauses = usize::from(made) + 1;
    }

    /// A record that does not stand, for one of several reasons.
    fn refused(&mut self) {
        let [rows, clauses] = [self.rows.len() as u16, self.clauses as u16];
        match self.random.below(6) {
            0 => self.file.fields(9, 0, &[]),
            1 => self.file.symbol(7),
            2 => self.file.clause_of_rows(&[(true, rows)]),
            3 => self.file.fields(kind::WINDOW, 0, &[clauses, 1, 2]),
            4 => self.file.fields(kind::WINDOW, 0, &[clauses.saturating_sub(1), 2, 1]),
            _ => self.file.resolve(clauses, 1, clauses, 1),
        };
    }
}
