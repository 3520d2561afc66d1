//! Terms in the notation of Boyer and Moore: (P x (f y)), with u to z and a to d for variables; a constant
//! is (a).

use yestrwyn_second::environment::Environment;
use yestrwyn_second::expression::{Binding, Expression, Followed, Node};

/// Rows read from text, each distinct one once.
#[derive(Default)]
pub struct Rows {
    pub nodes: Vec<Node>,
    symbols: Vec<String>,
}

/// No example has a larger index.
const LARGEST: u16 = 20;

const VARIABLES: &str = "uvwxyzabcd";

impl Rows {
    /// The row of a term given as text.
    pub fn term(&mut self, text: &str) -> u16 {
        let spaced = text.replace('(', " ( ").replace(')', " ) ");
        let mut tokens = spaced.split_whitespace();
        self.parse(&mut tokens).expect("a term")
    }

    /// An expression: a term at an index.
    pub fn at(&mut self, text: &str, index: u16) -> Expression {
        Expression { row: self.term(text), index }
    }

    /// An environment of bindings, each a variable, its index, a term, its index.
    pub fn environment(&mut self, bindings: &[(&str, u16, &str, u16)]) -> Environment {
        let mut environment = Environment::new();
        environment.clear(LARGEST);
        for &(variable, index, term, at) in bindings {
            let number = VARIABLES.find(variable).expect("a variable") as u16;
            let (variable, value) = (self.at(variable, index), self.at(term, at));
            environment.bind(&Binding { variable, number, value }, 0);
        }
        environment
    }

    /// The value of an expression in an environment; a variable is its letter and index.
    pub fn value(&self, environment: &mut Environment, at: Expression) -> String {
        let end = environment.follow(&self.nodes, at);
        let Expression { row, index } = end.expression();
        match (end, &self.nodes[usize::from(row)]) {
            (Followed::Unbound(_), Node::Variable(number)) => {
                format!("{}{index}", &VARIABLES[usize::from(*number)..=usize::from(*number)])
            }
            (Followed::Application(_), Node::Application { symbol, count, arguments }) => {
                let mut text = format!("({}", self.symbols[usize::from(*symbol)]);
                for &row in &arguments[..usize::from(*count)] {
                    text += " ";
                    text += &self.value(environment, Expression { row, index });
                }
                text + ")"
            }
            other => panic!("following ended on {other:?}"),
        }
    }

    fn parse<'a>(&mut self, tokens: &mut impl Iterator<Item = &'a str>) -> Option<u16> {
        let token = tokens.next()?;
        if token == ")" {
            return None;
        }
        if token != "(" {
            let number = VARIABLES.find(token).expect("a variable");
            return Some(self.row(Node::Variable(number as u16)));
        }
        let name = tokens.next()?;
        let symbol = self.symbols.iter().position(|known| known == name).unwrap_or_else(|| {
            self.symbols.push(name.to_string());
            self.symbols.len() - 1
        });
        let mut arguments = Vec::new();
        while let Some(row) = self.parse(tokens) {
            arguments.push(row);
        }
        Some(self.row(Node::application(symbol as u16, &arguments)))
    }

    fn row(&mut self, node: Node) -> u16 {
        let place = self.nodes.iter().position(|known| *known == node).unwrap_or_else(|| {
            self.nodes.push(node);
            self.nodes.len() - 1
        });
        place as u16
    }
}
