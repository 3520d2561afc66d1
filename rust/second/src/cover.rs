//! Which input clause covers which: whether one substitution for the variables of the first turns each of its literals
//! into one of the second, whose variables stand as constants.
//!
//! Terms are compared by rows. Equal terms are one row, so each row of the first clause has one image in a match: it is
//! opened once, however often it occurs in the term written out. Each literal of the first clause is matched with each
//! of the second by itself; the matches go together if any two of them do, which is looked at beforehand.

use yestrwyn_types::limits::{INPUT_LITERALS, VARIABLES};
use yestrwyn_types::{Cells, Covering, Form, Tables, Verdict};

use crate::check::check_tables;
use crate::checker::Checker;
use crate::clause::Origin;
use crate::expression::Node;

/// Most literals of an input clause.
const MOST: usize = INPUT_LITERALS as usize;
/// Bits for the choices of one literal, so that those of all literals fit into 64.
const WIDTH: usize = MOST + 1;

/// Does input clause `c` of a file cover input clause `d`?
pub fn covers(file: &[u8], c: u16, d: u16) -> Covering {
    covers_into(file, c, d, &mut Cells::new().lend())
}

/// The same, which leaves the tables as the check of the file does.
pub fn covers_into(file: &[u8], c: u16, d: u16, tables: &mut Tables<'_>) -> Covering {
    // Whether a file stands does not depend on the day, so any will do.
    match check_tables(Form::Old, 0, file, tables, &mut Vec::new()) {
        (answer, Some(checker)) if !matches!(answer.verdict, Verdict::Refused { .. }) => {
            compare(&checker, c, d)
        }
        _ => Covering::refused(),
    }
}

/// The same for what a checker has read so far, if that is a whole file: many clauses can be compared after one check.
pub fn compare(checker: &Checker, c: u16, d: u16) -> Covering {
    let (Some(general), Some(special)) = (input(checker, c), input(checker, d)) else {
        return Covering::refused();
    };
    match earliest_choice(checker.nodes(), general, special) {
        Some(literals) => Covering::yes(literals),
        None => Covering::no(),
    }
}

/// The literals of an input clause, 2 × row, plus 1 if positive; none if there is no such clause or it is derived.
fn input(checker: &Checker, clause: u16) -> Option<&[u16]> {
    let clause = checker.clauses().get(usize::from(clause))?;
    match &clause.origin {
        Origin::Input(codes) => codes.get(..usize::from(clause.literals)),
        _ => None,
    }
}

/// For each literal of the first clause one of the second, from 1, such that one substitution turns all of them into these:
/// the earliest such choice.
fn earliest_choice(nodes: &[Node], general: &[u16], special: &[u16]) -> Option<[u16; MOST]> {
    let mut chosen = [0; MOST];
    let (choices, open) = Choices::new(nodes, general, special)?;
    choices.choose(0, open, &mut chosen).then_some(chosen)
}

/// What one literal's match puts for its variables.
#[derive(Clone, Copy)]
struct Values {
    /// A bit for each variable number that has a value.
    bound: u64,
    rows: [u16; VARIABLES],
}

impl Values {
    const NONE: Values = Values { bound: 0, rows: [0; VARIABLES] };

    /// Are the values of all variables that both have the same?
    fn agree(&self, other: &Values) -> bool {
        let mut common = self.bound & other.bound;
        while common != 0 {
            let number = common.trailing_zeros() as usize;
            if self.rows[number] != other.rows[number] {
                return false;
            }
            common &= common - 1;
        }
        true
    }
}

/// The matches of single atoms, one after another.
struct Matching<'a> {
    nodes: &'a [Node],
    /// For each row the number of the match that it was met in last, and its image in that.
    images: Vec<[u16; 2]>,
    matches: u16,
    pairs: Vec<(u16, u16)>,
}

impl Matching<'_> {
    /// The values that turn one row into another, if any do.
    fn values(&mut self, row: u16, image: u16) -> Option<Values> {
        let mut values = Values::NONE;
        self.matches += 1;
        self.pairs.clear();
        self.pairs.push((row, image));
        while let Some((row, image)) = self.pairs.pop() {
            let held = self.images.get_mut(usize::from(row))?;
            if held[0] != self.matches {
                *held = [self.matches, image];
                self.open(row, image, &mut values)?;
            } else if held[1] != image {
                return None;
            }
        }
        Some(values)
    }

    /// A row that is met for the first time: a variable gets its value, of an application the arguments come next.
    fn open(&mut self, row: u16, image: u16, values: &mut Values) -> Option<()> {
        match *self.nodes.get(usize::from(row))? {
            Node::Variable(number) => {
                *values.rows.get_mut(usize::from(number))? = image;
                values.bound |= 1 << number;
            }
            Node::Application { symbol, count, ref arguments } => match self.nodes.get(usize::from(image))? {
                Node::Application { symbol: other, arguments: images, .. } if *other == symbol => {
                    let arguments = arguments.iter().copied().zip(images.iter().copied());
                    self.pairs.extend(arguments.take(usize::from(count)));
                }
                _ => return None,
            },
        }
        Some(())
    }
}

/// The matches of literals with literals. Bit 8 × i + j is that of literal i of the first clause with j of the second, both
/// from 0.
struct Choices {
    /// How many literals the first clause has.
    count: usize,
    /// For each match those of later literals that go together with it.
    agreeing: [u64; WIDTH * MOST],
}

impl Choices {
    /// All matches, and which of them go together; none at all if some literal has no match.
    fn new(nodes: &[Node], general: &[u16], special: &[u16]) -> Option<(Choices, u64)> {
        let mut values = [Values::NONE; WIDTH * MOST];
        let images = vec![[0; 2]; nodes.len()];
        let mut matching = Matching { nodes, images, matches: 0, pairs: Vec::new() };
        let mut choices = Choices { count: general.len(), agreeing: [0; WIDTH * MOST] };
        let mut open = 0;
        for (&literal, first) in general.iter().zip((0..).step_by(WIDTH)) {
            let before = open;
            let same_sign = (first..).zip(special).filter(|(_, other)| *other % 2 == literal % 2);
            for (bit, &other) in same_sign {
                let Some(found) = matching.values(literal / 2, other / 2) else { continue };
                values[bit] = found;
                open |= 1 << bit;
                choices.add(bit, before, &values);
            }
            if open == before {
                return None;
            }
        }
        Some((choices, open))
    }

    /// Adds a match to those that go together with it, of the earlier ones.
    fn add(&mut self, bit: usize, earlier: u64, values: &[Values; WIDTH * MOST]) {
        let mut left = earlier;
        while left != 0 {
            let one = left.trailing_zeros() as usize;
            if values[one].agree(&values[bit]) {
                self.agreeing[one] |= 1 << bit;
            }
            left &= left - 1;
        }
    }

    /// Chooses for the literals from `place` on, the earliest first, among the matches that are open for them.
    fn choose(&self, place: usize, open: u64, chosen: &mut [u16; MOST]) -> bool {
        if place == self.count {
            return true;
        }
        let mut left = open_for(open, place);
        while left != 0 {
            let choice = left.trailing_zeros() as usize;
            let next = open & self.agreeing[WIDTH * place + choice];
            chosen[place] = choice as u16 + 1;
            let possible = (place + 1..self.count).all(|later| open_for(next, later) != 0);
            if possible && self.choose(place + 1, next, chosen) {
                return true;
            }
            left &= left - 1;
        }
        false
    }
}

/// The open matches of one literal.
fn open_for(open: u64, place: usize) -> u64 {
    open >> (WIDTH * place) & ((1 << WIDTH) - 1)
}
