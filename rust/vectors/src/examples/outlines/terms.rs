//! The terms that these files are made of.

use super::Sides;
use crate::examples::edges::{hold_bindings, sized};
use crate::sketch::Sketch;

/// Variables of one clause.
pub(super) const X: u16 = 0;
pub(super) const Y: u16 = 1;
pub(super) const U: u16 = 2;
pub(super) const W: u16 = 3;

/// A file with its symbols: f of one argument, g of two, and constants a and b.
pub(crate) struct Terms {
    pub file: Sketch,
    f: u16,
    g: u16,
    a: u16,
    b: u16,
}

impl Terms {
    /// The symbols; and steps after which there is room for some bindings only, if it is said for how many.
    pub fn new(room: Option<usize>) -> Terms {
        let mut file = Sketch::new();
        let [f, g, a, b] = [1, 2, 0, 0].map(|arity| file.symbol(arity));
        if let Some(room) = room {
            hold_bindings(&mut file, room);
        }
        Terms { file, f, g, a, b }
    }

    pub fn var(&mut self, number: u16) -> u16 {
        self.file.variable(number)
    }

    pub fn a(&mut self) -> u16 {
        self.file.application(self.a, &[])
    }

    pub fn b(&mut self) -> u16 {
        self.file.application(self.b, &[])
    }

    pub fn f(&mut self, inner: u16) -> u16 {
        self.file.application(self.f, &[inner])
    }

    pub fn g(&mut self, first: u16, second: u16) -> u16 {
        self.file.application(self.g, &[first, second])
    }

    /// f applied some number of times.
    pub fn nested(&mut self, times: usize, inner: u16) -> u16 {
        (0..times).fold(inner, |row, _| self.f(row))
    }

    /// A term of a size over a leaf.
    pub fn over(&mut self, leaf: u16, size: usize) -> u16 {
        sized(&mut self.file, [self.f, self.g], size, leaf)
    }

    /// A term of a size without variables: the same row on both sides, so one pair of an outline.
    pub fn ground(&mut self, size: usize) -> u16 {
        let leaf = self.a();
        self.over(leaf, size)
    }

    /// Two terms over different variables that take some number of pairs, and do not clash.
    pub fn filling(&mut self, pairs: usize) -> [u16; 2] {
        [U, W].map(|variable| {
            let leaf = self.var(variable);
            self.over(leaf, pairs)
        })
    }

    /// Arguments (x, x) and (y, f(y)), at which unification gives 11.
    pub fn knot(&mut self) -> Sides {
        let [x, y] = [X, Y].map(|number| self.var(number));
        [vec![x, x], vec![y, self.f(y)]]
    }
}

/// Arguments with one more on each side.
pub(super) fn and([mut left, mut right]: Sides, [l, r]: [u16; 2]) -> Sides {
    left.push(l);
    right.push(r);
    [left, right]
}
