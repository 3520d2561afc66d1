//! Terms, literals and clauses in names.

use yestrwyn_types::limits::READOUT_OCCURRENCES;

use crate::model::{Expression, Literal, Model, Node};
use crate::names::Names;
use crate::values::Values;
use crate::wording::counted;

/// Literals that the beginning of a clause has.
const BEGINNING: usize = 16;

/// What is printed of a term, and whether that is all of it.
pub struct Printed {
    /// The text. What is over 64 symbols and variables is printed as `..` for each argument left out.
    pub text: String,
    /// Is something left out?
    pub cut: bool,
}

/// What is still to be printed of a term.
enum Piece<T> {
    Value(T),
    Mark(char),
}

/// Prints a term: `head` says of a part what stands at its top and which parts are its arguments. At most 64 parts are asked.
pub fn print<T>(start: T, mut head: impl FnMut(T) -> (String, Vec<T>)) -> Printed {
    let mut printed = Printed { text: String::new(), cut: false };
    let (mut occurrences, mut open) = (0, vec![Piece::Value(start)]);
    while let Some(piece) = open.pop() {
        match piece {
            Piece::Mark(mark) => printed.text.push(mark),
            Piece::Value(_) if occurrences == READOUT_OCCURRENCES => {
                printed.text.push_str("..");
                printed.cut = true;
            }
            Piece::Value(value) => {
                occurrences += 1;
                let (name, arguments) = head(value);
                printed.text.push_str(&name);
                push_arguments(&mut open, arguments);
            }
        }
    }
    printed
}

/// Puts arguments on a stack, the first on top, with parentheses and commas.
fn push_arguments<T>(open: &mut Vec<Piece<T>>, arguments: Vec<T>) {
    let count = arguments.len();
    if count > 0 {
        open.push(Piece::Mark(')'));
    }
    for (place, argument) in (0..count).rev().zip(arguments.into_iter().rev()) {
        open.push(Piece::Value(argument));
        open.push(Piece::Mark(if place == 0 { '(' } else { ',' }));
    }
}

/// The sign of a literal.
pub fn sign(positive: bool) -> char {
    if positive {
        '+'
    } else {
        '-'
    }
}

/// Prints clauses of a file in names.
#[derive(Clone, Copy)]
pub struct Printer<'a> {
    model: &'a Model<'a>,
    names: &'a Names,
}

impl<'a> Printer<'a> {
    /// A printer of a file's clauses.
    pub fn new(model: &'a Model<'a>, names: &'a Names) -> Printer<'a> {
        Printer { model, names }
    }

    /// The names.
    pub fn names(&self) -> &'a Names {
        self.names
    }

    /// A term under some values.
    pub fn term(&self, values: &mut Values, start: Expression) -> Printed {
        print(start, |part| {
            let Expression { row, index } = values.follow(self.model, part);
            match self.model.node(row) {
                Node::Variable(number) => (format!("v{number}.{index}"), Vec::new()),
                Node::Application { symbol, arguments } => {
                    let arguments = arguments.iter().map(|&row| Expression { row, index });
                    (self.names.symbol(*symbol), arguments.collect())
                }
            }
        })
    }

    /// A literal as the readout has it, but in names: over 64 symbols and variables it is its sign and `~`.
    pub fn literal(&self, values: &mut Values, literal: Literal) -> String {
        let printed = self.term(values, literal.atom);
        let atom = if printed.cut { "~" } else { &printed.text };
        format!("{}{atom}", sign(literal.positive))
    }

    /// A literal of which the beginning is printed where it is too long for a readout.
    pub fn shortened(&self, values: &mut Values, literal: Literal) -> String {
        format!("{}{}", sign(literal.positive), self.term(values, literal.atom).text)
    }

    /// The literals of a clause as the readout has them, but in names.
    pub fn literals(&self, clause: u16) -> Vec<String> {
        self.first_literals(clause, usize::MAX)
    }

    /// The same of so many literals at most.
    pub fn first_literals(&self, clause: u16, most: usize) -> Vec<String> {
        let mut values = Values::of_clause(self.model, clause);
        let literals = self.model.clause(clause).map_or(&[][..], |clause| &clause.literals);
        literals.iter().take(most).map(|&literal| self.literal(&mut values, literal)).collect()
    }

    /// The literals of a clause with blanks between them. One without literals is said to have none.
    pub fn clause(&self, clause: u16) -> String {
        match self.literals(clause) {
            literals if literals.is_empty() => "(no literal is left)".to_string(),
            literals => literals.join(" "),
        }
    }

    /// The same of the first sixteen literals, and how many more there are.
    pub fn beginning(&self, clause: u16) -> String {
        let count = self.model.clause(clause).map_or(0, |clause| clause.literals.len());
        match count.saturating_sub(BEGINNING) {
            0 => self.clause(clause),
            more => {
                let literals = self.first_literals(clause, BEGINNING).join(" ");
                format!("{literals} and {}", counted(more, "further literal"))
            }
        }
    }

    /// A row as it is written, with variables by their number alone.
    pub fn row(&self, row: u16) -> String {
        let written = print(row, |row| match self.model.node(row) {
            Node::Variable(number) => (format!("v{number}"), Vec::new()),
            Node::Application { symbol, arguments } => (self.names.symbol(*symbol), arguments.clone()),
        });
        written.text
    }
}
