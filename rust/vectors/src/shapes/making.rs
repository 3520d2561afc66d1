//! The file of a shape.

use std::ops::RangeFrom;

use yestrwyn_types::limits::RECORDS;

use super::{Ending, Shape};
use crate::examples::edges::sized;
use crate::sketch::{app, apply, var, SignedTerm, Sketch, Term};

/// A file of a shape under construction.
pub(super) struct Making<'a> {
    shape: &'a Shape,
    file: Sketch,
    /// A link from use to use, of two arguments.
    link: u16,
    /// A literal of a line, of one argument.
    line: u16,
    /// What the last steps are on, of one argument.
    worked: u16,
    /// Functions of six, two and one arguments.
    six: u16,
    two: u16,
    one: u16,
    constant: u16,
}

impl<'a> Making<'a> {
    /// A file with its symbols.
    pub fn new(shape: &'a Shape) -> Making<'a> {
        let mut file = Sketch::new();
        for _ in 0..shape.unused {
            file.symbol(0);
        }
        let [link, line, worked, six, two, one, constant] =
            [2, 1, 1, 6, 2, 1, 0].map(|arity| file.symbol(arity));
        Making { shape, file, link, line, worked, six, two, one, constant }
    }

    /// The whole file, with no more last steps than a number.
    pub fn file(mut self, steps: usize) -> Vec<u8> {
        let leaf = self.leaf();
        let leaves = self.repeated(leaf, self.shape.uses);
        let whole = self.widened(leaves);
        let whole = self.worked_on(whole);
        self.steps(whole, steps);
        self.file.finish()
    }

    /// The atom that links one use to the next. It holds the linked variables, and the ground ones or the
    /// constant in their places.
    fn link_atom(&self, constants: bool) -> Term {
        let Shape { ground, linked, .. } = *self.shape;
        let place = |number: u16| match number {
            _ if number >= ground + linked || (constants && number < ground) => app(self.constant, []),
            _ => var(number),
        };
        let block = |start: u16| apply(self.six, &(start..start + 6).map(place).collect::<Vec<_>>());
        let half = |start: u16| {
            let blocks: Vec<Term> = (0..6).map(|place| block(start + 6 * place)).collect();
            apply(self.six, &blocks)
        };
        app(self.link, [half(0), half(36)])
    }

    /// -link +link of a use, factored: the first factor binds the ground variables.
    fn leaf(&mut self) -> u16 {
        let atom = self.link_atom(false);
        let mut literals: Vec<SignedTerm> = vec![(false, atom.clone()), (true, atom.clone())];
        let ground = self.shape.ground > 0;
        if ground {
            literals.insert(0, (false, self.link_atom(true)));
        }
        for _ in 0..self.shape.factors {
            literals.push((true, atom.clone()));
        }
        let mut clause = self.file.clause(&literals);
        if ground {
            clause = self.file.factor(clause, 2, 1);
        }
        for _ in 0..self.shape.factors {
            clause = self.file.factor(clause, 2, 3);
        }
        clause
    }

    /// A clause -link +link resolved with itself until it has been used so many times.
    fn repeated(&mut self, clause: u16, uses: u16) -> u16 {
        let (mut power, mut sum) = (clause, None);
        for bit in 0..16 {
            if uses >> bit == 0 {
                break;
            }
            if uses >> bit & 1 == 1 {
                sum = Some(sum.map_or(power, |sum| self.file.resolve(sum, 2, power, 1)));
            }
            if uses >> bit > 1 {
                power = self.file.resolve(power, 2, power, 1);
            }
        }
        sum.unwrap_or(clause)
    }

    /// A literal of a line: a term of so many occurrences over its variables.
    fn line_atom(&mut self, start: u16) -> u16 {
        let inner = usize::from(self.shape.occurrences).saturating_sub(1).max(1);
        let row = self.term_of(inner, &mut (start..));
        self.file.application(self.line, &[row])
    }

    /// A term of a size with different variables, or constants past their number.
    fn term_of(&mut self, size: usize, variables: &mut RangeFrom<u16>) -> u16 {
        match size {
            0 | 1 => {
                let number = variables.next().unwrap_or(0) % self.shape.variety;
                self.file.variable(number.min(63))
            }
            2..7 => {
                let inner = self.term_of(size - 1, variables);
                self.file.application(self.one, &[inner])
            }
            _ => {
                let part = (size - 1) / 6;
                let rest = size - 1 - 6 * part;
                let mut rows = [0; 6];
                for (place, row) in rows.iter_mut().enumerate() {
                    *row = self.term_of(part + usize::from(place < rest), variables);
                }
                self.file.application(self.six, &rows)
            }
        }
    }

    /// The leaves with the wide clauses before or after them: -link first, and +link among the literals.
    fn widened(&mut self, leaves: u16) -> u16 {
        if self.shape.wide == 0 {
            return leaves;
        }
        let wide = self.wide();
        (0..self.shape.wide).fold(leaves, |whole, joined| match self.shape.leaf_left {
            true => self.file.resolve(whole, self.plus_link(joined), wide, 1),
            false => self.file.resolve(wide, 2, whole, 1),
        })
    }

    /// -link +link and five literals for the lines.
    fn wide(&mut self) -> u16 {
        let link = self.link_atom(false);
        let link = self.file.term(&link);
        let mut literals = vec![(false, link), (true, link)];
        for place in 0..5 {
            literals.push((true, self.line_atom(13 * place)));
        }
        self.file.clause_of_rows(&literals)
    }

    /// The number of the literal +link once so many wide clauses are joined to the leaves.
    fn plus_link(&self, joined: u16) -> u16 {
        match self.shape.leaf_left {
            true => 2 + 5 * joined.saturating_sub(1),
            false => 2 + 5 * joined,
        }
    }

    /// All that with one use more, whose literals the last steps are on: they come first.
    fn worked_on(&mut self, whole: u16) -> u16 {
        let link = self.link_atom(false);
        let link = self.file.term(&link);
        // Two atoms, of which a factor deletes one, or one that is resolved away.
        let atoms = if self.shape.ending == Ending::Factor { 2 } else { 1 };
        let mut literals: Vec<(bool, u16)> =
            (0..atoms).map(|variable| (true, self.work_atom(variable))).collect();
        literals.push((self.shape.worked_first, link));
        let last = self.file.clause_of_rows(&literals);
        let on = if self.shape.worked_first { 1 } else { self.plus_link(self.shape.wide) };
        self.file.resolve(last, atoms + 1, whole, on)
    }

    /// An atom of the last steps: a term of so many occurrences over one variable.
    fn work_atom(&mut self, variable: u16) -> u16 {
        let leaf = self.file.variable(variable);
        let term = sized(&mut self.file, [self.one, self.two], usize::from(self.shape.work), leaf);
        self.file.application(self.worked, &[term])
    }

    /// The last steps.
    fn steps(&mut self, whole: u16, steps: usize) {
        let unit = match self.shape.ending {
            Ending::Factor => None,
            Ending::Pairs => Some(self.work_atom(0)),
            Ending::Occurrence => {
                let variable = self.file.variable(1);
                Some(self.file.application(self.worked, &[variable]))
            }
        };
        let unit = unit.map(|atom| self.file.clause_of_rows(&[(false, atom)]));
        let room = RECORDS.saturating_sub(usize::from(self.file.records()));
        for _ in 0..steps.min(room) {
            match unit {
                None => self.file.factor(whole, 1, 2),
                Some(unit) => self.file.resolve(whole, 1, unit, 1),
            };
        }
    }
}
