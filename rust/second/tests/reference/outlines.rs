//! Outlines by plain recursion, and clashes by their places.

use std::collections::BTreeSet;

use super::{field, Reference, Row};

/// How a comparison of outlines ends.
#[derive(Clone, Copy, PartialEq, Eq, Debug)]
pub enum Outline {
    /// Every pair that was there was taken up, and none clashed.
    Agree,
    /// Two applications of different symbols.
    Clash,
    /// Another pair would begin after 4,096.
    Spent,
}

impl Reference {
    /// The comparison of two rows, as written.
    pub fn outline(&self, left: u16, right: u16) -> Outline {
        self.outline_pair(left, right, &mut 0)
    }

    /// One pair, and what is below it; `taken` have been taken up before. Whatever is not agreement ends all.
    fn outline_pair(&self, left: u16, right: u16, taken: &mut u32) -> Outline {
        if *taken == 4096 {
            return Outline::Spent;
        }
        *taken += 1;
        if left == right {
            return Outline::Agree;
        }
        match (&self.taken(left), &self.taken(right)) {
            (Row::Application(f, _), Row::Application(g, _)) if f != g => Outline::Clash,
            (Row::Application(_, ls), Row::Application(_, rs)) => {
                let mut pairs = ls.iter().zip(rs).map(|(&l, &r)| self.outline_pair(l, r, taken));
                pairs.find(|&ended| ended != Outline::Agree).unwrap_or(Outline::Agree)
            }
            _ => Outline::Agree,
        }
    }

    /// Is there a place at which both rows hold applications of different symbols, while both hold applications
    /// of one symbol at every place above it? However many places there are, no two rows are compared twice.
    pub fn clashing_place(&self, left: u16, right: u16) -> bool {
        self.place_below(left, right, &mut BTreeSet::new())
    }

    /// The same below pairs of which some have been looked at.
    fn place_below(&self, left: u16, right: u16, seen: &mut BTreeSet<(u16, u16)>) -> bool {
        if !seen.insert((left, right)) {
            return false;
        }
        match (&self.taken(left), &self.taken(right)) {
            (Row::Application(f, ls), Row::Application(g, rs)) => {
                f != g || ls.iter().zip(rs).any(|(&l, &r)| self.place_below(l, r, seen))
            }
            _ => false,
        }
    }

    /// The rows of each pair of atoms of a step that was refused after its other tests.
    pub fn refused_atoms(&self, file: &[u8]) -> Vec<(u16, u16)> {
        let Some((10..=13, record)) = self.refusal else { return Vec::new() };
        let bytes = &file[16 * usize::from(record)..];
        let fields: Vec<usize> = (0..7).map(|number| usize::from(field(bytes, number))).collect();
        let (other, numbers) = match bytes[0] {
            5 => (fields[2], &fields[3..4]),
            7 => (fields[2], &fields[3..3 + usize::from(bytes[1])]),
            _ => (fields[0], &fields[2..3]),
        };
        let row = |clause: usize, number: usize| self.literal(clause, number).expect("a literal").1 .0;
        numbers.iter().map(|&number| (row(fields[0], fields[1]), row(other, number))).collect()
    }
}
