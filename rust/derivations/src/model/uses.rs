//! The derivation of a clause, and its uses of input clauses.

use super::{Model, Origin};

impl Model<'_> {
    /// The uses of a clause: the k-th, counted from 0 here and from 1 in the words of the format, is the input clause at that index. There
    /// are as many as its maximum index.
    pub fn uses(&self, clause: u16) -> Vec<u16> {
        let (mut uses, mut open) = (Vec::new(), vec![clause]);
        while let Some(number) = open.pop() {
            let Some(at) = self.clause(number) else { continue };
            match at.origin {
                Origin::Input => uses.push(number),
                _ => open.extend(at.origin.parents().into_iter().rev()),
            }
        }
        uses
    }

    /// How often a clause uses each input clause: those that it uses, in their order, with how often.
    pub fn use_counts(&self, clause: u16) -> Vec<(u16, usize)> {
        let mut counts = vec![0; self.clauses.len()];
        for used in self.uses(clause) {
            counts[usize::from(used)] += 1;
        }
        (0..).zip(counts).filter(|&(_, count)| count > 0).collect()
    }

    /// The clauses that a clause is made of, itself among them, each once and in their order.
    pub fn derivation(&self, clause: u16) -> Vec<u16> {
        let (mut reached, mut open) = (vec![false; self.clauses.len()], vec![clause]);
        while let Some(number) = open.pop() {
            let Some(at) = self.clause(number) else { continue };
            if !std::mem::replace(&mut reached[usize::from(number)], true) {
                open.extend(at.origin.parents());
            }
        }
        (0..).zip(reached).filter_map(|(number, reached)| reached.then_some(number)).collect()
    }
}
