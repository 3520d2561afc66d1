//! Variable-free terms, each kept once: two are equal exactly if their numbers are.

use std::hash::{BuildHasher, RandomState};

/// A variable-free term, by its number among the terms kept.
#[derive(Clone, Copy, PartialEq, Eq, PartialOrd, Ord, Hash, Debug)]
pub struct Term(u32);

/// What stands at the top of a term.
#[derive(Clone, Copy, PartialEq, Eq, Debug)]
pub enum Head {
    /// A symbol of the file.
    Symbol(u16),
    /// The extra constant, which stands for every variable without a value.
    Extra,
}

/// The terms kept, each as a few numbers in one list: a file of 4,096 records can have millions of them.
pub struct Terms {
    /// Of each term its head and its arguments.
    cells: Vec<u32>,
    /// Where in that list each term begins; and at last its end.
    starts: Vec<u32>,
    /// Places by hash, of which half are free at least; as many as a power of two.
    table: Vec<Place>,
    hasher: RandomState,
}

/// A place by hash: free, or that of a term.
#[derive(Clone, Copy, Default)]
struct Place {
    /// One more than the number of the term, or 0.
    taken: u32,
    /// Its hash.
    hash: u32,
}

impl Terms {
    /// No terms.
    pub fn new() -> Terms {
        Terms {
            cells: Vec::new(),
            starts: vec![0],
            table: vec![Place::default(); 1024],
            hasher: RandomState::new(),
        }
    }

    /// How many different terms are kept.
    pub fn count(&self) -> usize {
        self.starts.len() - 1
    }

    /// The term of a head applied to terms.
    pub fn apply(&mut self, head: Head, arguments: &[Term]) -> Term {
        let begin = self.cells.len();
        self.cells.push(match head {
            Head::Symbol(symbol) => u32::from(symbol),
            Head::Extra => u32::MAX,
        });
        self.cells.extend(arguments.iter().map(|argument| argument.0));
        let hash = self.hasher.hash_one(&self.cells[begin..]) as u32;
        let place = self.find(hash, &self.cells[begin..]);
        if self.table[place].taken != 0 {
            self.cells.truncate(begin);
            return Term(self.table[place].taken - 1);
        }
        let number = self.count();
        self.starts.push(self.cells.len() as u32);
        self.table[place] = Place { taken: number as u32 + 1, hash };
        if 2 * self.count() > self.table.len() {
            self.widen();
        }
        Term(number as u32)
    }

    /// What stands at the top of a term, and its arguments.
    pub fn parts(&self, term: Term) -> (Head, Vec<Term>) {
        let cells = self.cells_of(term.0 as usize);
        let head = u16::try_from(cells[0]).map_or(Head::Extra, Head::Symbol);
        (head, cells[1..].iter().map(|&argument| Term(argument)).collect())
    }

    /// The cells of a term.
    fn cells_of(&self, number: usize) -> &[u32] {
        &self.cells[self.starts[number] as usize..self.starts[number + 1] as usize]
    }

    /// The place of a term with this hash and these cells: the one that it has, or a free one.
    fn find(&self, hash: u32, cells: &[u32]) -> usize {
        let is_other = |place: Place| {
            place.taken != 0 && (place.hash != hash || self.cells_of(place.taken as usize - 1) != cells)
        };
        let mut place = hash as usize & (self.table.len() - 1);
        while is_other(self.table[place]) {
            place = (place + 1) & (self.table.len() - 1);
        }
        place
    }

    /// Doubles the table. No two of its terms are equal, so that each takes the first free place.
    fn widen(&mut self) {
        let wider = vec![Place::default(); 2 * self.table.len()];
        let places = std::mem::replace(&mut self.table, wider);
        for taken in places.into_iter().filter(|place| place.taken != 0) {
            let mut place = taken.hash as usize & (self.table.len() - 1);
            while self.table[place].taken != 0 {
                place = (place + 1) & (self.table.len() - 1);
            }
            self.table[place] = taken;
        }
    }
}

impl Default for Terms {
    fn default() -> Terms {
        Terms::new()
    }
}
