//! Files with two clauses whose comparison is measured: made to take long, and the stored example.

use std::fs;
use std::path::Path;

use yestrwyn_vectors::sketch::Sketch;

/// Literals of each clause, and arguments of a row.
const LITERALS: u16 = 7;
const ARGUMENTS: usize = 6;
/// Variables from this number on stand in one literal each; those below stand in all literals or in none.
const OWN: u16 = 50;
/// The last variable.
const LAST: u16 = 63;

/// A file, and two of its clauses: does the first cover the second?
pub struct Question {
    pub name: String,
    pub file: Vec<u8>,
    pub clauses: [u16; 2],
}

impl Question {
    /// The first two clauses of a file.
    fn new(name: &str, file: Vec<u8>) -> Question {
        Question { name: name.to_string(), file, clauses: [0, 1] }
    }
}

/// The files by what their comparison does.
pub fn questions() -> Vec<Question> {
    let search = Shape { search: true, ..PLAIN };
    vec![
        Question::new("49 matches through 4,000 rows", Shape { rows: 4000, used: 4000, ..PLAIN }.file()),
        Question::new("49 matches through 2,000 rows that fail at the last", unlike_at_the_bottom()),
        Question::new("49 small matches after 4,000 other rows", Shape { rows: 4000, ..PLAIN }.file()),
        Question::new("49 small matches of 52 variables each", Shape { variables: true, ..PLAIN }.file()),
        Question::new("823,543 choices, none of which works", search.file()),
        Question::new(
            "all of it at once",
            Shape { rows: 3980, used: 3980, variables: true, ..search }.file(),
        ),
        Question::new("`covers.proof`", example()),
    ]
}

/// Two clauses of seven literals p(t, v, x, y) in which every literal of the first matches every literal of the second.
struct Shape {
    /// Rows without variables, each of six earlier ones.
    rows: usize,
    /// How many of them are in t, which is the same everywhere.
    used: usize,
    /// Are there 50 variables in v, for which the second clause has a constant?
    variables: bool,
    /// Does no choice work? Then the last two literals of the first clause share a variable, and nothing that the one can
    /// become goes together with anything that the other can.
    search: bool,
}

/// A small one, of which the first choice works.
const PLAIN: Shape = Shape { rows: 20, used: 20, variables: false, search: false };

impl Shape {
    /// The file: the first clause has variables for x and y, the second values that all differ.
    fn file(&self) -> Vec<u8> {
        let mut file = Sketch::new();
        let [p, f, a] = [4, ARGUMENTS as u8, 0].map(|arity| file.symbol(arity));
        let bottom = file.application(a, &[]);
        let terms = nested(&mut file, f, bottom, self.rows);
        let mut clause = |variables: bool, own: &dyn Fn(&mut Sketch, u16) -> [u16; 2]| {
            let v = leaves(&mut file, f, bottom, variables);
            let mut literal = |number| {
                let [x, y] = own(&mut file, number);
                (true, file.application(p, &[terms[self.used - 1], v, x, y]))
            };
            let literals: Vec<(bool, u16)> = (0..LITERALS).map(&mut literal).collect();
            file.clause_of_rows(&literals);
        };
        clause(self.variables, &|file, number| self.own(number).map(|number| file.variable(number)));
        clause(false, &|_, number| [0, 1].map(|side| terms[2 * usize::from(number) + side]));
        file.finish()
    }

    /// The variables that are x and y in a literal of the first clause.
    fn own(&self, literal: u16) -> [u16; 2] {
        let first = OWN + 2 * literal;
        if self.search && literal == LITERALS - 2 {
            return [LAST, first];
        }
        [first, first + 1]
    }
}

/// Rows that each name the six before them, the first of all being given.
fn nested(file: &mut Sketch, f: u16, bottom: u16, count: usize) -> Vec<u16> {
    let mut rows = vec![bottom];
    while rows.len() < count {
        let arguments: [u16; ARGUMENTS] =
            std::array::from_fn(|place| rows[rows.len().saturating_sub(place + 1)]);
        rows.push(file.application(f, &arguments));
    }
    rows
}

/// A term of 50 leaves: variables, or the row given.
fn leaves(file: &mut Sketch, f: u16, bottom: u16, variables: bool) -> u16 {
    let leaf = |number| if variables { file.variable(number) } else { bottom };
    let mut rows: Vec<u16> = (0..OWN).map(leaf).collect();
    while rows.len() > 1 {
        let parts = rows.chunks(ARGUMENTS).map(|part| {
            let mut arguments = [bottom; ARGUMENTS];
            arguments[..part.len()].copy_from_slice(part);
            file.application(f, &arguments)
        });
        rows = parts.collect();
    }
    rows[0]
}

/// Two clauses of one atom seven times, which differ in their deepest parts only.
fn unlike_at_the_bottom() -> Vec<u8> {
    let mut file = Sketch::new();
    let [p, f, a, b] = [1, ARGUMENTS as u8, 0, 0].map(|arity| file.symbol(arity));
    let bottoms = [a, b].map(|symbol| file.application(symbol, &[]));
    let mut atoms = bottoms.map(|bottom| {
        let rows = nested(&mut file, f, bottom, 2000);
        file.application(p, &[rows[rows.len() - 1]])
    });
    atoms.reverse();
    for atom in atoms {
        file.clause_of_rows(&[(true, atom); LITERALS as usize]);
    }
    file.finish()
}

/// The stored example.
fn example() -> Vec<u8> {
    let path = Path::new(env!("CARGO_MANIFEST_DIR")).join("../../examples/covers.proof");
    fs::read(path).expect("the stored example")
}
