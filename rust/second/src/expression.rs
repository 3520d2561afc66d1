//! Rows as nodes, and expressions: a row with an index.

/// A decoded row, so that walks read neither the file nor the row table.
#[derive(Clone, Copy, PartialEq, Eq, Debug)]
pub enum Node {
    /// A variable, by its number.
    Variable(u16),
    /// A symbol applied to `count` argument rows; the rest of `arguments` is zero.
    Application { symbol: u16, count: u8, arguments: [u16; 6] },
}

impl Node {
    /// An application of a symbol to argument rows; rows past the sixth are dropped.
    pub fn application(symbol: u16, rows: &[u16]) -> Node {
        let mut arguments = [0; 6];
        let mut count = 0;
        for (cell, &row) in arguments.iter_mut().zip(rows) {
            *cell = row;
            count += 1;
        }
        Node::Application { symbol, count, arguments }
    }
}

/// The number of a variable's row. Other rows have none; for them it is 0.
pub fn variable_number(nodes: &[Node], row: u16) -> u16 {
    match nodes.get(usize::from(row)) {
        Some(&Node::Variable(number)) => number,
        _ => 0,
    }
}

/// A row read at an index: variables of one number are different at different indices.
#[derive(Clone, Copy, PartialEq, Eq, Hash, Debug)]
pub struct Expression {
    pub row: u16,
    pub index: u16,
}

/// What following an expression ends on.
#[derive(Clone, Copy, PartialEq, Eq, Debug)]
pub enum Followed {
    /// A variable without a value.
    Unbound(Expression),
    /// An application.
    Application(Expression),
}

impl Followed {
    /// The expression that following ended on, whichever case it is.
    pub fn expression(self) -> Expression {
        match self {
            Followed::Unbound(end) | Followed::Application(end) => end,
        }
    }
}

/// A binding: a variable's row and index, and the row and index of its value. The variable's number
/// stands beside its row, so that loading a binding reads no node.
#[derive(Clone, Copy, PartialEq, Eq, Debug)]
pub struct Binding {
    pub variable: Expression,
    pub number: u16,
    pub value: Expression,
}
