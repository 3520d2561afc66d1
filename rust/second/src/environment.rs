//! The binding environment of one clause: an array with a cell for each variable number and index.

use yestrwyn_types::limits::VARIABLES;

use crate::expression::{Binding, Expression, Followed, Node};

/// Row + 1 and index of a value; row part 0 where the variable is free.
type Cell = [u16; 2];
const FREE: Cell = [0, 0];

/// Values of variables at indices from 1 up to the one that it was last cleared for. Its users never bind
/// a variable to something whose value contains it (the occurrence test sees to that), so following ends.
#[derive(Default)]
pub struct Environment {
    cells: Vec<Cell>,
}

impl Environment {
    /// An environment that has room for no index yet.
    pub fn new() -> Environment {
        Environment::default()
    }

    /// Frees the variables at indices up to `index`; a step needs no more of the array than that, and the
    /// array grows only as far as a step needs it.
    pub fn clear(&mut self, index: u16) {
        let end = slot(0, index) + VARIABLES;
        let held = end.min(self.cells.len());
        self.cells[..held].fill(FREE);
        if held < end {
            self.cells.resize(end, FREE);
        }
    }

    /// Puts a binding in, with `offset` added to both indices.
    pub fn bind(&mut self, binding: &Binding, offset: u16) {
        let Binding { variable, number, value } = binding;
        let at = slot(*number, variable.index) + slot(0, offset);
        if let Some(cell) = self.cells.get_mut(at) {
            *cell = [value.row.wrapping_add(1), value.index.wrapping_add(offset)];
        }
    }

    /// Goes from value to value to an application or an unbound variable.
    /// Each variable met on the way is made to skip a link (path halving), which alters no end.
    pub fn follow(&mut self, nodes: &[Node], start: Expression) -> Followed {
        let mut at = start;
        loop {
            let Some(from) = variable_slot(nodes, at) else { return Followed::Application(at) };
            let Some(next) = self.value(from) else { return Followed::Unbound(at) };
            let Some(second) = variable_slot(nodes, next) else { return Followed::Application(next) };
            let Some(far) = self.value(second) else { return Followed::Unbound(next) };
            self.cells[from] = self.cells[second];
            at = far;
        }
    }

    /// The value held in a slot, if there is one.
    fn value(&self, slot: usize) -> Option<Expression> {
        match self.cells.get(slot) {
            Some(&[row, index]) if row != 0 => Some(Expression { row: row - 1, index }),
            _ => None,
        }
    }
}

/// The slot of an expression that is a variable. A row that does not exist counts as no variable.
fn variable_slot(nodes: &[Node], at: Expression) -> Option<usize> {
    match nodes.get(usize::from(at.row)) {
        Some(&Node::Variable(number)) => Some(slot(number, at.index)),
        _ => None,
    }
}

/// Where the value of a variable number at an index stands in the array.
fn slot(number: u16, index: u16) -> usize {
    usize::from(index) * VARIABLES + usize::from(number)
}
