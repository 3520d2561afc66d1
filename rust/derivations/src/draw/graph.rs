//! What is drawn: a box for each clause of a derivation, and a line from each clause that a step names to the one that it makes.

use crate::model::{Model, Origin};
use crate::names::Names;
use crate::text::Printer;
use crate::wording::counted;

/// A derivation of more clauses than this is drawn in a compact form: boxes with numbers alone, and lines without words.
pub const IN_FULL: usize = 150;

/// Literals that a box has at most, and characters of each.
const LITERALS: usize = 8;
const CHARACTERS: usize = 44;

/// What a box stands for.
#[derive(Clone, Copy, PartialEq, Eq, Debug)]
pub enum Sort {
    /// An input clause: a rule or a fact.
    Input,
    /// A clause that a step makes.
    Derived,
    /// The clause whose derivation it is.
    Last,
}

/// A box.
pub struct Shape {
    /// The clause.
    pub clause: u16,
    /// What it stands for.
    pub sort: Sort,
    /// Its words, a line each; the first is its number.
    pub lines: Vec<String>,
}

/// Where a line enters its box.
#[derive(Clone, Copy, PartialEq, Eq, Hash, Debug)]
pub enum Side {
    /// It comes from the left clause.
    Left,
    /// It comes from the right clause.
    Right,
    /// It comes from the clause that is factored.
    Middle,
}

/// A line.
pub struct Line {
    /// The box that it comes from, by its place in the list.
    pub from: usize,
    /// The box that it leads to.
    pub to: usize,
    /// Where it enters.
    pub side: Side,
    /// Its words: the side and the literals that the step takes.
    pub words: String,
}

/// A picture that is not laid out yet.
pub struct Graph {
    /// The boxes, in the order of their clauses.
    pub shapes: Vec<Shape>,
    /// The lines.
    pub lines: Vec<Line>,
}

impl Graph {
    /// The picture of a clause's derivation.
    pub fn of(model: &Model<'_>, names: &Names, clause: u16) -> Graph {
        let clauses = model.derivation(clause);
        let mut place = vec![0; model.clauses().len()];
        for (at, &number) in clauses.iter().enumerate() {
            place[usize::from(number)] = at;
        }
        let printer = Printer::new(model, names);
        let sort = |number: u16| match model.clause(number) {
            _ if number == clause => Sort::Last,
            Some(at) if at.is_input() => Sort::Input,
            _ => Sort::Derived,
        };
        let shape =
            |&clause: &u16| Shape { clause, sort: sort(clause), lines: box_lines(model, printer, clause) };
        let shapes = clauses.iter().map(shape).collect();
        let lines = clauses.iter().enumerate().flat_map(|(to, &number)| {
            let parents = model.clause(number).map_or_else(Vec::new, |clause| named(&clause.origin));
            let line = |(from, side, words): (u16, Side, String)| Line {
                from: place[usize::from(from)],
                to,
                side,
                words,
            };
            parents.into_iter().map(line).collect::<Vec<_>>()
        });
        Graph { lines: lines.collect(), shapes }
    }

    /// Is it drawn in the compact form?
    pub fn is_compact(&self) -> bool {
        self.shapes.len() > IN_FULL
    }
}

/// The words of a box.
fn box_lines(model: &Model<'_>, printer: Printer<'_>, clause: u16) -> Vec<String> {
    let mut lines = vec![format!("clause {clause}")];
    lines.extend(printer.first_literals(clause, LITERALS).iter().map(|literal| shortened(literal)));
    match model.clause(clause).map_or(0, |clause| clause.literals.len()) {
        0 => lines.push("no literal is left".to_string()),
        count if count > LITERALS => {
            lines.push(format!("and {}", counted(count - LITERALS, "further literal")))
        }
        _ => {}
    }
    lines
}

/// The beginning of a text that is too long for a box. Names are ASCII, and so are literals.
fn shortened(text: &str) -> String {
    match text.char_indices().nth(CHARACTERS) {
        Some((end, _)) => format!("{}..", &text[..end]),
        None => text.to_string(),
    }
}

/// The clauses that a step names, with its sides and literals.
fn named(origin: &Origin) -> Vec<(u16, Side, String)> {
    match origin {
        Origin::Input => Vec::new(),
        Origin::Factor { parent, kept, deleted } => {
            vec![(*parent, Side::Middle, format!("keeps {kept}, drops {deleted}"))]
        }
        Origin::Resolve { left, left_literal, right, right_literals } => {
            let numbers: Vec<String> = right_literals.iter().map(u16::to_string).collect();
            vec![
                (*left, Side::Left, format!("left {left_literal}")),
                (*right, Side::Right, format!("right {}", numbers.join(", "))),
            ]
        }
    }
}
