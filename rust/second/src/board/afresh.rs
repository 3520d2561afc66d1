//! The answers worked out afresh, from the records of a file and the input clauses that are present: no board is kept, and each
//! derivation is walked for the input clauses that it uses.

use std::ops::RangeInclusive;

use yestrwyn_types::limits::BOARD_CELLS;
use yestrwyn_types::record::{kind, read, Record};
use yestrwyn_types::{BoardAnswer, BoardRefusal, ClauseState, Reason, Verdict};

use crate::check::check;

/// How a clause is made. Parents are named by their numbers.
#[derive(Clone, PartialEq, Eq, Debug)]
enum Made {
    /// An input clause, with its days, and whether it is present.
    Input {
        days: RangeInclusive<u16>,
        present: bool,
    },
    Factor(u16),
    Resolve(u16, u16),
}

impl Made {
    /// Is this clause a parent?
    fn has_parent(&self, clause: u16) -> bool {
        match *self {
            Made::Input { .. } => false,
            Made::Factor(parent) => parent == clause,
            Made::Resolve(left, right) => left == clause || right == clause,
        }
    }
}

/// A clause: how it is made, and how many literals it has.
#[derive(Clone, PartialEq, Eq, Debug)]
struct Clause {
    made: Made,
    literals: u16,
}

/// A file that stands, a day, and which of its input clauses are present.
#[derive(Clone, PartialEq, Eq, Debug)]
pub struct Afresh {
    day: u16,
    clauses: Vec<Clause>,
}

impl Afresh {
    /// A file with all input clauses present, or its refusal if it does not stand.
    pub fn open(day: u16, file: &[u8]) -> Result<Afresh, BoardRefusal> {
        if let Verdict::Refused { reason, record } = check(day, file).verdict {
            return Err(BoardRefusal { reason, record });
        }
        let mut opened = Afresh { day, clauses: Vec::new() };
        for record in (0..).map_while(|number| read(file, number)) {
            opened.record(&record);
        }
        Ok(opened)
    }

    /// Withdraws an input clause, and gives the answer anew.
    pub fn withdraw(&mut self, clause: u16) -> BoardAnswer {
        self.call(clause, false)
    }

    /// Returns an input clause that was withdrawn, and gives the answer anew.
    pub fn give_back(&mut self, clause: u16) -> BoardAnswer {
        self.call(clause, true)
    }

    /// The lowest standing empty clause whose input clauses are all in force on the day.
    pub fn answer(&self) -> Option<u16> {
        let empty = (0..).zip(&self.clauses).filter(|(_, clause)| clause.literals == 0);
        let mut right = empty.filter(|(number, _)| {
            let ClauseState { in_force, stands } = self.state(*number);
            in_force && stands
        });
        right.next().map(|(number, _)| number)
    }

    /// How many clauses there are.
    pub fn len(&self) -> usize {
        self.clauses.len()
    }

    /// Are there none?
    pub fn is_empty(&self) -> bool {
        self.clauses.is_empty()
    }

    /// Is there an input clause of this number?
    pub fn is_input(&self, clause: u16) -> bool {
        self.clauses.get(usize::from(clause)).is_some_and(|clause| matches!(clause.made, Made::Input { .. }))
    }

    /// The input clauses that a clause's derivation uses, each once, in no order.
    pub fn uses(&self, clause: u16) -> Vec<u16> {
        let (mut found, mut waiting) = (Vec::new(), vec![clause]);
        let mut seen = vec![false; self.clauses.len()];
        while let Some(number) = waiting.pop() {
            let place = usize::from(number);
            let Some(at) = self.clauses.get(place) else { continue };
            if std::mem::replace(&mut seen[place], true) {
                continue;
            }
            match at.made {
                Made::Input { .. } => found.push(number),
                Made::Factor(parent) => waiting.push(parent),
                Made::Resolve(left, right) => waiting.extend([left, right]),
            }
        }
        found
    }

    /// What a board would have of a clause: whether all input clauses that it uses are in force, and present.
    pub fn state(&self, clause: u16) -> ClauseState {
        let mut state = ClauseState { in_force: true, stands: true };
        for input in self.uses(clause) {
            if let Made::Input { days, present } = &self.clauses[usize::from(input)].made {
                state.in_force &= days.contains(&self.day);
                state.stands &= present;
            }
        }
        state
    }

    /// The last clause that has a clause for a parent, or 0 if none has: clause 0 has no parents.
    pub fn last_child(&self, clause: u16) -> u16 {
        let child = self.clauses.iter().rposition(|later| later.made.has_parent(clause));
        child.unwrap_or(0) as u16
    }

    /// The cells that a board would have: one for each clause, zeros after them, and the day.
    pub fn cells(&self) -> Vec<u16> {
        let cell = |number: u16| self.state(number).cell(self.last_child(number));
        let mut cells: Vec<u16> = (0..).zip(&self.clauses).map(|(number, _)| cell(number)).collect();
        cells.resize(BOARD_CELLS - 1, 0);
        cells.push(self.day);
        cells
    }

    /// Makes an input clause present or withdrawn.
    fn call(&mut self, clause: u16, wanted: bool) -> BoardAnswer {
        let refused = |reason| BoardAnswer::Refused(BoardRefusal::of_the_call(reason));
        let Some(Clause { made: Made::Input { present, .. }, .. }) =
            self.clauses.get_mut(usize::from(clause))
        else {
            return refused(Reason::NotAnInput);
        };
        if *present == wanted {
            return refused(Reason::Already);
        }
        *present = wanted;
        BoardAnswer::Answered(self.answer())
    }

    /// Adds what a record of a file that stands says.
    fn record(&mut self, record: &Record) {
        let [a, first, c, ..] = record.fields;
        let count = u16::from(record.count);
        match record.kind {
            kind::INPUT => self.add(Made::Input { days: 0..=u16::MAX, present: true }, count),
            kind::RESOLVE => self.add(Made::Resolve(a, c), self.literals(a) + self.literals(c) - 2),
            kind::FACTOR => self.add(Made::Factor(a), self.literals(a) - 1),
            kind::RESOLVE_SEVERAL => {
                self.add(Made::Resolve(a, c), self.literals(a) + self.literals(c) - 1 - count)
            }
            kind::WINDOW => self.window(a, first..=c),
            _ => {}
        }
    }

    fn add(&mut self, made: Made, literals: u16) {
        self.clauses.push(Clause { made, literals });
    }

    /// The number of literals of an earlier clause.
    fn literals(&self, clause: u16) -> u16 {
        self.clauses[usize::from(clause)].literals
    }

    /// The days of an input clause, in place of those that it had.
    fn window(&mut self, clause: u16, given: RangeInclusive<u16>) {
        if let Made::Input { days, .. } = &mut self.clauses[usize::from(clause)].made {
            *days = given;
        }
    }
}
