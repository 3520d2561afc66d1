//! The two readouts: the verdict, then a line for each clause that stands. They differ in how variables are written.

use std::io::{self, Write};

use yestrwyn_types::limits::READOUT_OCCURRENCES;
use yestrwyn_types::{Answer, Cells, Form, Tables};

use crate::check::check_tables;
use crate::checker::Checker;
use crate::clause::{all_literals, Literal};
use crate::environment::Environment;
use crate::expression::{Expression, Node};
use crate::naming::{push_number, ByAppearance, ByIndex, Naming};

/// The readout of a file. Its first line goes by the day, the others do not.
pub fn readout(day: u16, file: &[u8]) -> Vec<u8> {
    readout_into(day, file, &mut Cells::new().lend())
}

/// The same, which leaves the tables as the check of the file does.
pub fn readout_into(day: u16, file: &[u8], tables: &mut Tables<'_>) -> Vec<u8> {
    whole::<ByIndex>(day, file, tables)
}

/// The same readout, written line by line, so that no more than a line is held in memory.
pub fn write_readout(
    day: u16,
    file: &[u8],
    tables: &mut Tables<'_>,
    out: &mut impl Write,
) -> io::Result<Answer> {
    by_lines::<ByIndex>(day, file, tables, out)
}

/// The second readout of a file, in which the variables of each line are numbered from 0 by first appearance.
pub fn canonical_readout(day: u16, file: &[u8]) -> Vec<u8> {
    canonical_readout_into(day, file, &mut Cells::new().lend())
}

/// The same, which leaves the tables as the check of the file does.
pub fn canonical_readout_into(day: u16, file: &[u8], tables: &mut Tables<'_>) -> Vec<u8> {
    whole::<ByAppearance>(day, file, tables)
}

/// The second readout, written line by line.
pub fn write_canonical_readout(
    day: u16,
    file: &[u8],
    tables: &mut Tables<'_>,
    out: &mut impl Write,
) -> io::Result<Answer> {
    by_lines::<ByAppearance>(day, file, tables, out)
}

/// A readout in one piece.
fn whole<N: Naming>(day: u16, file: &[u8], tables: &mut Tables<'_>) -> Vec<u8> {
    let mut text = Vec::new();
    // Writing to a vector does not fail.
    let _ = by_lines::<N>(day, file, tables, &mut text);
    text
}

/// Checks a file and writes its readout line by line.
fn by_lines<N: Naming>(
    day: u16,
    file: &[u8],
    tables: &mut Tables<'_>,
    out: &mut impl Write,
) -> io::Result<Answer> {
    let (answer, checker) = check_tables(Form::Old, day, file, tables, &mut Vec::new());
    let (mut text, mut naming) = (Vec::new(), N::default());
    first_line(&mut text, &answer);
    out.write_all(&text)?;
    if let Some(mut checker) = checker {
        for clause in 0..answer.clauses {
            text.clear();
            line(&mut text, &mut checker, clause, &mut naming);
            out.write_all(&text)?;
        }
    }
    Ok(answer)
}

/// The verdict as the first line.
fn first_line(text: &mut Vec<u8>, answer: &Answer) {
    text.extend_from_slice(format!("{}\n", answer.verdict).as_bytes());
}

/// A clause's number, maximum index and literals.
fn line(text: &mut Vec<u8>, checker: &mut Checker, number: u16, naming: &mut impl Naming) {
    let Some(&clause) = checker.clauses().get(usize::from(number)) else { return };
    push_number(text, number);
    text.push(b' ');
    push_number(text, clause.max_index);
    let literals = all_literals(checker.clauses(), number);
    if !literals.is_empty() {
        let (nodes, environment) = checker.load(number);
        let mut writer = Writer { nodes, environment, naming, stack: Vec::new() };
        writer.naming.back_to(0);
        for literal in literals {
            text.push(b' ');
            writer.literal(text, literal);
        }
    }
    text.push(b'\n');
}

/// What is still to be written of a literal.
enum Piece {
    Value(Expression),
    Mark(u8),
}

/// What the literals of a line are written with.
struct Writer<'a, N> {
    nodes: &'a [Node],
    environment: &'a mut Environment,
    naming: &'a mut N,
    stack: Vec<Piece>,
}

impl<N: Naming> Writer<'_, N> {
    /// A literal: its sign, and its value or `~` where that has too many occurrences.
    fn literal(&mut self, text: &mut Vec<u8>, literal: Literal) {
        text.push(if literal.positive { b'+' } else { b'-' });
        let (start, named) = (text.len(), self.naming.named());
        let mut occurrences = 0;
        self.stack.clear();
        self.stack.push(Piece::Value(literal.atom));
        while let Some(piece) = self.stack.pop() {
            match piece {
                Piece::Mark(mark) => text.push(mark),
                Piece::Value(expression) => {
                    occurrences += 1;
                    if occurrences > READOUT_OCCURRENCES {
                        text.truncate(start);
                        text.push(b'~');
                        self.naming.back_to(named);
                        return;
                    }
                    self.head(text, expression);
                }
            }
        }
    }

    /// One occurrence: an unbound variable, or a symbol whose arguments are put on the stack.
    fn head(&mut self, text: &mut Vec<u8>, expression: Expression) {
        let Expression { row, index } = self.environment.follow(self.nodes, expression).expression();
        match self.nodes.get(usize::from(row)) {
            Some(&Node::Variable(number)) => self.naming.write(text, number, index),
            Some(&Node::Application { symbol, count, arguments }) => {
                text.push(b's');
                push_number(text, symbol);
                if count == 0 {
                    return;
                }
                self.stack.push(Piece::Mark(b')'));
                for (place, &row) in arguments.iter().enumerate().take(usize::from(count)).rev() {
                    self.stack.push(Piece::Value(Expression { row, index }));
                    self.stack.push(Piece::Mark(if place == 0 { b'(' } else { b',' }));
                }
            }
            None => {}
        }
    }
}
