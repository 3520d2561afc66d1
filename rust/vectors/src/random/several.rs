//! Random files with steps that resolve one left literal with several right ones.

use yestrwyn_second::expression::Node;
use yestrwyn_types::limits::{INPUT_LITERALS, RECORDS, RIGHT_LITERALS};
use yestrwyn_types::record::{kind, Record};

use super::{make, Maker, SplitMix64};
use crate::alone::unification_alone;

/// A random file of 10 to 50 records, in which every third step or so names up to four right literals.
pub fn several_file(seed: u64) -> Vec<u8> {
    let mut random = SplitMix64::new(seed ^ 0x5e7e_4a1f_0000_0000);
    let records = random.between(10, 50);
    make(random, records, true)
}

/// The same with a number of records to aim at, up to 4,096.
pub fn several_file_of(seed: u64, records: usize) -> Vec<u8> {
    make(SplitMix64::new(seed ^ 0x5e7e_4a1f_0000_0000), records.min(RECORDS), true)
}

impl Maker {
    /// Adds literals to those of a clause that have its last one's sign and predicate, in half of all clauses.
    pub(super) fn more_alike(&mut self, codes: &mut Vec<u16>) {
        let Some(&last) = codes.last() else { return };
        if self.random.one_in(2) {
            return;
        }
        let nodes = self.checker.nodes();
        let symbol = |row: u16| match nodes.get(usize::from(row)) {
            Some(Node::Application { symbol, .. }) => Some(*symbol),
            _ => None,
        };
        let alike = self.atoms.iter().copied().filter(|&row| symbol(row) == symbol(last / 2));
        let alike: Vec<u16> = alike.collect();
        while codes.len() < usize::from(INPUT_LITERALS) && !self.random.one_in(3) {
            let drawn = alike.get(self.random.below(alike.len())).copied().unwrap_or(last / 2);
            codes.push(2 * drawn + last % 2);
        }
    }

    /// A step on several right literals: of some that are drawn, the one with the most. Where a refused record is to be
    /// written, the list of right literals is often spoiled.
    pub(super) fn resolve_several(&mut self) {
        let mut given = Vec::new();
        for _ in 0..self.random.between(1, 5) {
            let drawn = self.unified_literals();
            if drawn.len() > given.len() {
                given = drawn;
            }
        }
        let keep = self.keep(40);
        if keep {
            self.spoil(&mut given);
        }
        if given.len() > 3 {
            self.write(kind::RESOLVE_SEVERAL, (given.len() - 3) as u8, &given, keep);
        }
    }

    /// The fields of a step on some left literal and those of some right clause, from its first on, that unify with it
    /// together.
    fn unified_literals(&mut self) -> Vec<u16> {
        let clauses = self.checker.clauses().len();
        let [left, right] = [0; 2].map(|_| self.random.below(clauses) as u16);
        let mut given = vec![left, self.literal_of(left), right];
        let most = 3 + self.random.between(1, usize::from(RIGHT_LITERALS)).max(self.random.between(1, 3));
        let offered = self.checker.clauses().get(usize::from(right)).map_or(0, |clause| clause.literals);
        for number in 1..=offered {
            if given.len() < most && self.stays_unified(&given, number) {
                given.push(number);
            }
        }
        given
    }

    /// Has one more right literal another sign than the left one, and do all of them unify with it?
    fn stays_unified(&self, given: &[u16], number: u16) -> bool {
        let more = [given, &[number]].concat();
        let record = Record::new(kind::RESOLVE_SEVERAL, (more.len() - 3) as u8, &more);
        self.resolvent_length([given[0], given[1], given[2], number]).is_some()
            && unification_alone(&self.checker, &record) == Some(Ok(()))
    }

    /// One more right literal, whichever it is, or some of them in another order.
    fn spoil(&mut self, given: &mut Vec<u16>) {
        let number = self.literal_of(given[2]);
        match self.random.below(4) {
            0 => given[3..].reverse(),
            1 | 2 if given.len() < 7 => {
                given.push(number);
                given[3..].sort();
            }
            _ if given.len() < 7 => given.push(number + 1),
            _ => given[3..].rotate_left(1),
        }
    }
}
