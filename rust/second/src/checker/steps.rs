//! The steps: resolving one literal with one or more, and factoring.

use yestrwyn_types::limits::{INDEX, LITERALS, RIGHT_LITERALS};
use yestrwyn_types::record::Record;
use yestrwyn_types::Reason;

use super::{require, Checker};
use crate::clause::{literal, Clause, Holes, Literal, Origin};

impl Checker {
    /// Kind 5: the resolvent on one literal of each of two clauses.
    pub(super) fn resolve(&mut self, record: &Record) -> Result<(), Reason> {
        require(record.count == 0 && record.zero_from(4), Reason::Range)?;
        self.resolvent(&record.fields, 1)
    }

    /// Kind 7: the resolvent on one literal of the left clause and as many of the right as byte 1 says.
    pub(super) fn resolve_several(&mut self, record: &Record) -> Result<(), Reason> {
        let count = usize::from(record.count);
        let in_range = (1..=RIGHT_LITERALS).contains(&record.count);
        require(in_range && record.zero_from(3 + count), Reason::Range)?;
        self.resolvent(&record.fields, count)
    }

    /// The resolvent on a left literal and the first so many of the right ones named. All of these are unified with
    /// the left one, in turn, and none of them stays.
    fn resolvent(&mut self, fields: &[u16; 7], count: usize) -> Result<(), Reason> {
        let [left, left_literal, right, ref numbers @ ..] = *fields;
        let numbers = &numbers[..count];
        let (l, first) = (self.named(left)?, self.named_literal(left, left_literal)?);
        let r = self.named(right)?;
        let mut found = [first; RIGHT_LITERALS as usize];
        for (place, &number) in found.iter_mut().zip(numbers) {
            *place = self.named_literal(right, number)?;
        }
        let others = &mut found[..count];
        require(numbers.is_sorted_by(|one, next| one < next), Reason::Order)?;
        require(others.iter().all(|other| other.positive != first.positive), Reason::Signs)?;
        let literals = (l.literals + r.literals).saturating_sub(1 + count as u16);
        let index = l.max_index + r.max_index;
        require(literals <= LITERALS && index <= INDEX, Reason::TooLarge)?;
        self.compare_outlines(first, others)?;
        self.environment.clear(index);
        self.load_at(left, 0);
        self.load_at(right, l.max_index);
        others.iter_mut().for_each(|other| other.atom.index += l.max_index);
        let held = self.unify(first, others)?;
        let origin = Origin::Resolve { left, left_literal, right, right_literals: Holes::new(numbers) };
        self.clause(origin, literals, index, held);
        Ok(())
    }

    /// Kind 6: the factor on two literals of a clause.
    pub(super) fn factor(&mut self, record: &Record) -> Result<(), Reason> {
        require(record.count == 0 && record.zero_from(3), Reason::Range)?;
        let [parent, kept, deleted, ..] = record.fields;
        let clause = self.named(parent)?;
        let (first, second) = (self.named_literal(parent, kept)?, self.named_literal(parent, deleted)?);
        require(kept != deleted && first.positive == second.positive, Reason::Signs)?;
        self.compare_outlines(first, &[second])?;
        self.environment.clear(clause.max_index);
        self.load_at(parent, 0);
        let held = self.unify(first, &[second])?;
        let literals = clause.literals.saturating_sub(1);
        self.clause(Origin::Factor { parent, kept, deleted }, literals, clause.max_index, held);
        Ok(())
    }

    /// A clause that a step names.
    fn named(&self, clause: u16) -> Result<Clause, Reason> {
        self.clauses.get(usize::from(clause)).copied().ok_or(Reason::Missing)
    }

    /// A literal that a step names.
    fn named_literal(&self, clause: u16, number: u16) -> Result<Literal, Reason> {
        let Some(found) = literal(&self.clauses, clause, number) else { return Err(Reason::Missing) };
        Ok(found)
    }

    /// Compares a literal's atom with each of the others as the input clauses have them, before anything is loaded
    /// or unified.
    fn compare_outlines(&mut self, one: Literal, others: &[Literal]) -> Result<(), Reason> {
        self.work = Some(0);
        let Checker { nodes, outlines, .. } = self;
        let clash = others.iter().any(|other| outlines.clash(nodes, one.atom.row, other.atom.row));
        require(!clash, Reason::Clash)
    }

    /// Unifies a literal with each of the others, in turn, in the loaded environment, and returns the number of
    /// bindings held before. A refused step leaves no bindings behind.
    fn unify(&mut self, one: Literal, others: &[Literal]) -> Result<usize, Reason> {
        let held = self.bindings.len();
        let Checker { nodes, bindings, environment, unifier, .. } = self;
        let atoms = others.iter().map(|other| other.atom);
        let result = unifier.unify(nodes, environment, bindings, one.atom, atoms);
        self.work = Some(self.unifier.work());
        if let Err(reason) = result {
            self.bindings.truncate(held);
            return Err(reason);
        }
        Ok(held)
    }
}
