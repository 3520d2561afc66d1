//! Unification of an expression with one or more others, with its work counted. Nested terms are kept on a heap stack.

use yestrwyn_types::limits::{BINDINGS, WORK};
use yestrwyn_types::Reason;

use crate::environment::Environment;
use crate::expression::{variable_number, Binding, Expression, Followed, Node};

/// The stacks of a unification, kept between steps so that a step allocates nothing.
#[derive(Default)]
pub struct Unifier {
    pairs: Vec<(Expression, Expression)>,
    expressions: Vec<Expression>,
    work: u32,
}

impl Unifier {
    /// The work of the last unification, also of one that failed.
    pub fn work(&self) -> u32 {
        self.work
    }

    /// Unifies an expression with each of the others, in turn, under one allowance of work. New bindings go into the
    /// environment and to the end of `bindings`, which holds those of all earlier steps; after a failure the caller
    /// takes them off again.
    pub fn unify(
        &mut self,
        nodes: &[Node],
        environment: &mut Environment,
        bindings: &mut Vec<Binding>,
        one: Expression,
        others: impl DoubleEndedIterator<Item = Expression>,
    ) -> Result<(), Reason> {
        self.work = 0;
        self.pairs.clear();
        self.pairs.extend(others.rev().map(|other| (one, other)));
        while let Some((left, right)) = self.pairs.pop() {
            self.count()?;
            let left = environment.follow(nodes, left);
            let right = environment.follow(nodes, right);
            if left.expression() == right.expression() {
                continue;
            }
            match (left, right) {
                (Followed::Unbound(variable), _) => {
                    self.bind(nodes, environment, bindings, variable, right.expression())?
                }
                (_, Followed::Unbound(variable)) => {
                    self.bind(nodes, environment, bindings, variable, left.expression())?
                }
                (Followed::Application(left), Followed::Application(right)) => {
                    self.arguments(nodes, left, right)?
                }
            }
        }
        Ok(())
    }

    /// Counts one piece of work that is about to begin.
    fn count(&mut self) -> Result<(), Reason> {
        if self.work >= WORK {
            return Err(Reason::Work);
        }
        self.work += 1;
        Ok(())
    }

    /// Two applications: equal symbols, then the arguments, the first on top of the stack.
    fn arguments(&mut self, nodes: &[Node], left: Expression, right: Expression) -> Result<(), Reason> {
        let pair = (nodes.get(usize::from(left.row)), nodes.get(usize::from(right.row)));
        let (
            Some(Node::Application { symbol: f, count, arguments: ls }),
            Some(Node::Application { symbol: g, arguments: rs, .. }),
        ) = pair
        else {
            return Err(Reason::Clash);
        };
        if f != g {
            return Err(Reason::Clash);
        }
        for (&l, &r) in ls.iter().zip(rs).take(usize::from(*count)).rev() {
            self.pairs
                .push((Expression { row: l, index: left.index }, Expression { row: r, index: right.index }));
        }
        Ok(())
    }

    /// Binds an unbound variable to a followed expression that is not the variable itself.
    fn bind(
        &mut self,
        nodes: &[Node],
        environment: &mut Environment,
        bindings: &mut Vec<Binding>,
        variable: Expression,
        value: Expression,
    ) -> Result<(), Reason> {
        if self.occurs(nodes, environment, variable, value)? {
            return Err(Reason::Occurs);
        }
        if bindings.len() >= BINDINGS {
            return Err(Reason::Bindings);
        }
        let binding = Binding { variable, number: variable_number(nodes, variable.row), value };
        environment.bind(&binding, 0);
        bindings.push(binding);
        Ok(())
    }

    /// The occurrence test: does the value of `within` contain the unbound variable?
    fn occurs(
        &mut self,
        nodes: &[Node],
        environment: &mut Environment,
        variable: Expression,
        within: Expression,
    ) -> Result<bool, Reason> {
        self.expressions.clear();
        self.expressions.push(within);
        while let Some(at) = self.expressions.pop() {
            self.count()?;
            match environment.follow(nodes, at) {
                Followed::Unbound(end) if end == variable => return Ok(true),
                Followed::Unbound(_) => {}
                Followed::Application(end) => push_arguments(nodes, end, &mut self.expressions),
            }
        }
        Ok(false)
    }
}

/// Puts the arguments of an application on a stack, the first on top.
pub fn push_arguments(nodes: &[Node], at: Expression, stack: &mut Vec<Expression>) {
    if let Some(Node::Application { count, arguments, .. }) = nodes.get(usize::from(at.row)) {
        let rows = arguments.iter().take(usize::from(*count)).rev();
        stack.extend(rows.map(|&row| Expression { row, index: at.index }));
    }
}
