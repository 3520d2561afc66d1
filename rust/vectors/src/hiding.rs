//! Random files whose literals have about as many occurrences as a readout shows, so that some are hidden, among others that
//! share their variables; and steps that put large terms for variables.

use crate::random::SplitMix64;
use crate::sketch::{app, apply, neg, pos, var, SignedTerm, Sketch, Term};

/// Most arguments of a symbol; the files have a symbol for each number of them.
const ARGUMENTS: usize = 6;
/// Most literals of a clause.
const LITERALS: usize = 128;

/// A file of clauses -q(x,y) .. +q(t,z) and of steps that resolve the last literal of one with the first of another.
pub fn hiding_file(seed: u64) -> Vec<u8> {
    let mut random = SplitMix64::new(seed ^ 0x41d1_0000_0000_0000);
    let mut hiding = Hiding { file: Sketch::new(), variables: [2, 5, 20, 64][random.below(4)], random };
    let q = hiding.file.symbol(2);
    for arity in 0..=ARGUMENTS {
        hiding.file.symbol(arity as u8);
    }
    let mut lengths: Vec<usize> = (0..hiding.random.between(2, 4)).map(|_| hiding.clause(q)).collect();
    for _ in 0..hiding.random.between(2, 12) {
        let [left, right] = [(); 2].map(|()| hiding.random.below(lengths.len()));
        let length = lengths[left] + lengths[right] - 2;
        if length <= LITERALS {
            hiding.file.resolve(left as u16, lengths[left] as u16, right as u16, 1);
            lengths.push(length);
        }
    }
    hiding.file.finish()
}

/// A file under construction, and how many variables it has.
struct Hiding {
    file: Sketch,
    variables: usize,
    random: SplitMix64,
}

impl Hiding {
    /// An input clause; returns how many literals it has.
    fn clause(&mut self, q: u16) -> usize {
        let [x, y] = [0, 1].map(var);
        let mut literals: Vec<SignedTerm> = vec![neg(app(q, [x, y]))];
        for _ in 0..self.random.between(1, 5) {
            let size = match self.random.below(5) {
                0 | 1 => self.random.between(1, 8),
                2 | 3 => self.random.between(58, 70),
                _ => self.random.between(70, 100),
            };
            literals.push((self.random.one_in(2), self.application(size)));
        }
        let (size, last) = (self.random.between(1, 12), self.variable());
        literals.push(pos(app(q, [self.term(size), last])));
        self.file.clause(&literals);
        literals.len()
    }

    /// Any variable.
    fn variable(&mut self) -> Term {
        var(self.random.below(self.variables) as u16)
    }

    /// A term of so many occurrences: mostly a variable, where that is one.
    fn term(&mut self, size: usize) -> Term {
        if size == 1 && !self.random.one_in(6) {
            return self.variable();
        }
        self.application(size)
    }

    /// A symbol with arguments of so many occurrences together, with its own.
    fn application(&mut self, size: usize) -> Term {
        let mut rest = size - 1;
        let count = if rest == 0 { 0 } else { self.random.between(1, rest.min(ARGUMENTS)) };
        let mut arguments = Vec::new();
        for waiting in (0..count).rev() {
            let own = if waiting == 0 { rest } else { self.random.between(1, rest - waiting) };
            rest -= own;
            arguments.push(self.term(own));
        }
        // Symbol 0 is that of the first and the last literals.
        apply(1 + count as u16, &arguments)
    }
}
