//! Symbols and rows, and expressions over them: rows with an index.

/// A symbol that stands.
#[derive(Clone, Copy, PartialEq, Eq, Debug)]
pub struct Symbol {
    /// Its record.
    pub record: u16,
    /// How many arguments it takes.
    pub arity: u8,
}

/// A row that stands.
#[derive(Clone, PartialEq, Eq, Debug)]
pub struct Row {
    /// Its own record, also if it repeats an earlier row.
    pub record: u16,
    /// The earliest row that equals it: itself if none does.
    pub earliest: u16,
    /// What it is, with the earliest rows for its arguments.
    pub node: Node,
}

/// What a row is.
#[derive(Clone, PartialEq, Eq, Debug)]
pub enum Node {
    /// A variable, by its number.
    Variable(u16),
    /// A symbol applied to rows, each the earliest of its equals.
    Application {
        /// The symbol.
        symbol: u16,
        /// The rows that it is applied to.
        arguments: Vec<u16>,
    },
}

impl Node {
    /// The rows that an application names; a variable names none.
    pub fn arguments(&self) -> &[u16] {
        match self {
            Node::Variable(_) => &[],
            Node::Application { arguments, .. } => arguments,
        }
    }
}

/// A row read at an index: one variable number at two indices is two variables.
#[derive(Clone, Copy, PartialEq, Eq, Hash, Debug)]
pub struct Expression {
    /// The row, the earliest of its equals.
    pub row: u16,
    /// The index, from 1.
    pub index: u16,
}

impl Expression {
    /// The same row at an index that is higher by so much.
    pub fn raised(self, by: u16) -> Expression {
        Expression { index: self.index.saturating_add(by), ..self }
    }
}

/// What a step put for a variable.
#[derive(Clone, Copy, PartialEq, Eq, Debug)]
pub struct Binding {
    /// The variable.
    pub variable: Expression,
    /// The number of the variable.
    pub number: u16,
    /// Its value.
    pub value: Expression,
}
