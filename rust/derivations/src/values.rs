//! What the variables of a clause have become.

use yestrwyn_types::limits::VARIABLES;

use crate::model::{Expression, Model, Node, Origin};

/// The values of the variables of a clause, or of the parents of a step: a place for each variable number at each index.
///
/// It holds each binding of the derivation once for every use of the clause that added it, as looking a variable up through the parents
/// would find it.
#[derive(Clone, Default)]
pub struct Values {
    places: Vec<Option<Expression>>,
}

impl Values {
    /// No values, for variables at indices up to one.
    pub fn none(index: u16) -> Values {
        let mut values = Values::default();
        values.clear(index);
        values
    }

    /// The values of a clause.
    pub fn of_clause(model: &Model<'_>, clause: u16) -> Values {
        let mut values = Values::none(model.clause(clause).map_or(0, |clause| clause.max_index));
        values.load(model, clause, 0);
        values
    }

    /// Takes all values away, and makes room for variables at indices up to one.
    pub fn clear(&mut self, index: u16) {
        self.places.clear();
        self.places.resize((usize::from(index) + 1) * VARIABLES, None);
    }

    /// Puts in the bindings of a clause's derivation, with indices raised by `by`.
    pub fn load(&mut self, model: &Model<'_>, clause: u16, by: u16) {
        let mut open = vec![(clause, by)];
        while let Some((number, by)) = open.pop() {
            let Some(at) = model.clause(number) else { continue };
            for binding in &model.bindings()[at.bindings.clone()] {
                self.put(binding.variable.raised(by).index, binding.number, binding.value.raised(by));
            }
            match at.origin {
                Origin::Input => {}
                Origin::Factor { parent, .. } => open.push((parent, by)),
                Origin::Resolve { left, right, .. } => {
                    let raise = model.clause(left).map_or(0, |left| left.max_index);
                    open.extend([(left, by), (right, by.saturating_add(raise))]);
                }
            }
        }
    }

    /// Gives a variable a value.
    pub fn bind(&mut self, model: &Model<'_>, variable: Expression, value: Expression) {
        if let &Node::Variable(number) = model.node(variable.row) {
            self.put(variable.index, number, value);
        }
    }

    /// The same of a variable by its index and its number.
    fn put(&mut self, index: u16, number: u16, value: Expression) {
        if let Some(held) = self.places.get_mut(usize::from(index) * VARIABLES + usize::from(number)) {
            *held = Some(value);
        }
    }

    /// What following an expression ends on: an application, or a variable without a value. Each variable on the way is made to skip one,
    /// which alters no end and keeps long ways short.
    pub fn follow(&mut self, model: &Model<'_>, start: Expression) -> Expression {
        let mut at = start;
        loop {
            let Some((from, next)) = self.value(model, at) else { return at };
            let Some((_, far)) = self.value(model, next) else { return next };
            self.places[from] = Some(far);
            at = far;
        }
    }

    /// The place and the value of an expression that is a variable with a value.
    fn value(&self, model: &Model<'_>, at: Expression) -> Option<(usize, Expression)> {
        let place = Values::place(model, at)?;
        let value = self.places.get(place).copied().flatten()?;
        Some((place, value))
    }

    /// The place of an expression that is a variable.
    pub fn place(model: &Model<'_>, at: Expression) -> Option<usize> {
        match model.node(at.row) {
            &Node::Variable(number) => Some(usize::from(at.index) * VARIABLES + usize::from(number)),
            Node::Application { .. } => None,
        }
    }
}
