//! Files read as terms, slowly and straight from their bytes, and what two files say together.

use std::collections::HashMap;

use yestrwyn_second::check;
use yestrwyn_types::Verdict;

/// A term: a variable's number, or a symbol and arguments, which are terms by their numbers here.
#[derive(Clone, PartialEq, Eq, Hash, Debug)]
enum Term {
    Variable(u16),
    Application(u16, Vec<usize>),
}

/// All terms met so far, in whatever file: equal terms have one number.
#[derive(Default)]
pub struct Terms(HashMap<Term, usize>);

/// An input clause: signs and terms, and its days.
#[derive(Clone, PartialEq, Eq, Debug)]
pub struct Clause {
    pub literals: Vec<(bool, usize)>,
    pub days: (u16, u16),
}

/// What a file without steps says.
#[derive(Clone, PartialEq, Eq, Debug)]
pub struct Contents {
    pub arities: Vec<u8>,
    pub rows: Vec<usize>,
    pub clauses: Vec<Clause>,
}

impl Contents {
    /// What two files say together: the longer list of symbols, the rows and clauses of one after those of the other.
    pub fn joined(one: Contents, other: Contents) -> Contents {
        let longer = one.arities.len() < other.arities.len();
        Contents {
            arities: if longer { other.arities } else { one.arities },
            rows: [one.rows, other.rows].concat(),
            clauses: [one.clauses, other.clauses].concat(),
        }
    }
}

impl Terms {
    /// The number of a term.
    fn number(&mut self, term: Term) -> usize {
        let next = self.0.len();
        *self.0.entry(term).or_insert(next)
    }

    /// What a file says that stands and has no step.
    pub fn contents(&mut self, file: &[u8]) -> Contents {
        let mut contents = Contents { arities: Vec::new(), rows: Vec::new(), clauses: Vec::new() };
        for record in file.chunks(16) {
            let count = usize::from(record[1]);
            let field = |place: usize| u16::from_le_bytes([record[2 + 2 * place], record[3 + 2 * place]]);
            match record[0] {
                1 => contents.arities.push(record[1]),
                2 => contents.rows.push(self.number(Term::Variable(field(0)))),
                3 => {
                    let arguments = (1..=count).map(|place| contents.rows[usize::from(field(place))]);
                    let term = Term::Application(field(0), arguments.collect());
                    contents.rows.push(self.number(term));
                }
                4 => {
                    let literal = |code: u16| (code % 2 == 1, contents.rows[usize::from(code / 2)]);
                    let literals = (0..count).map(|place| literal(field(place))).collect();
                    contents.clauses.push(Clause { literals, days: (0, u16::MAX) });
                }
                8 => contents.clauses[usize::from(field(0))].days = (field(1), field(2)),
                kind => panic!("kind {kind}"),
            }
        }
        contents
    }
}

/// Why two files are not merged, if they are not: the reason, the file and the record.
pub fn refusal(first: &[u8], second: &[u8]) -> Option<(u16, u16, usize)> {
    for (number, file) in [(1, first), (2, second)] {
        if let Verdict::Refused { reason, record } = check(7, file).verdict {
            return Some((reason.number(), number, record.into()));
        }
    }
    let kinds = |file: &[u8]| file.iter().step_by(16).copied().collect::<Vec<u8>>();
    for (number, file) in [(1, first), (2, second)] {
        if let Some(step) = kinds(file).iter().position(|kind| [5, 6, 7].contains(kind)) {
            return Some((17, number, step));
        }
    }
    // The records of symbols, with their arities.
    let symbols = |file: &[u8]| -> Vec<(usize, u8)> {
        let all = file.chunks(16).enumerate().filter(|(_, record)| record[0] == 1);
        all.map(|(place, record)| (place, record[1])).collect()
    };
    let [ours, theirs] = [first, second].map(symbols);
    let common = ours.len().min(theirs.len());
    for number in 0..common {
        if ours[number].1 != theirs[number].1 {
            return Some((18, 2, theirs[number].0));
        }
    }
    let records = first.len() / 16 + second.len() / 16 - common;
    (records > 4096).then_some((19, 0, 0))
}
