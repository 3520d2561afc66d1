//! The steps of a derivation that was found: copies joined to each other become resolution steps, and literals that become equal are
//! factored.

use yestrwyn_types::limits::RIGHT_LITERALS;

use crate::search::{End, Joined};
use crate::steps::Steps;

/// What is to become of a literal of a growing clause.
#[derive(Clone, Copy, PartialEq, Eq, Debug)]
enum Fate {
    /// It stays, as this literal of the target.
    Kept(usize),
    /// It goes in the step on this goal, to which it is opposite.
    Meets(usize),
    /// It is this goal, to which a copy is joined.
    Goal(usize),
}

/// A clause with the fate of each literal.
struct Grown {
    clause: usize,
    fates: Vec<Fate>,
}

/// Makes the steps of a derivation from clauses, by their numbers.
pub(crate) struct Growing<'a> {
    pub steps: &'a mut Steps,
    /// The line of the proof for which the steps are made.
    pub line: usize,
    pub parents: &'a [usize],
    pub joined: &'a Joined,
}

impl Growing<'_> {
    /// The clause that is left when all copies are resolved; none if a step does not go through, which would be a fault in the search.
    pub fn clause(&mut self) -> Option<usize> {
        self.grow(0).map(|grown| grown.clause)
    }

    /// A copy, resolved with what is joined to its goals. The growing clause is the left one in each step.
    fn grow(&mut self, copy: usize) -> Option<Grown> {
        let joined = self.joined;
        let from = joined.copies[copy];
        let clause = self.parents[from.parent];
        let goals = from.first..from.first + self.steps.clause(clause).literals.len();
        let fates = goals.clone().map(|goal| self.fate(goal)).collect();
        let mut grown = self.merged(Grown { clause, fates }, from.above)?;
        let below = joined.copies.iter().enumerate().skip(copy + 1);
        for (other, goal) in below.filter_map(|(other, below)| Some((other, below.above?))) {
            if goals.contains(&goal) {
                grown = self.resolved(grown, goal, other)?;
                grown = self.merged(grown, from.above)?;
            }
        }
        Some(grown)
    }

    /// Resolves a goal of a growing clause with the copy that is joined to it.
    fn resolved(&mut self, left: Grown, goal: usize, copy: usize) -> Option<Grown> {
        let right = self.grow(copy)?;
        let literal = left.fates.iter().position(|&fate| fate == Fate::Goal(goal))?;
        let rights = places(&right.fates, Fate::Meets(goal));
        let clause = self.steps.resolve(self.line, (left.clause, literal), (right.clause, &rights))?;
        let rest = |fates: Vec<Fate>, gone: Fate| fates.into_iter().filter(move |&fate| fate != gone);
        let fates = rest(left.fates, Fate::Goal(goal)).chain(rest(right.fates, Fate::Meets(goal))).collect();
        Some(Grown { clause, fates })
    }

    /// Factors literals of one fate to a single one. Those that go in the step on the goal above may stay, as many as one step takes.
    fn merged(&mut self, mut grown: Grown, above: Option<usize>) -> Option<Grown> {
        while let Some((kept, deleted)) = repeated(&grown.fates, above) {
            grown.clause = self.steps.factor(self.line, grown.clause, kept, deleted)?;
            grown.fates.remove(deleted);
        }
        Some(grown)
    }

    /// What becomes of a goal.
    fn fate(&self, goal: usize) -> Fate {
        match self.joined.ends[goal] {
            End::Kept(literal) => Fate::Kept(literal),
            End::Meets(above) => Fate::Meets(above),
            End::Same(other) => self.fate(other),
            End::Joined(_) => Fate::Goal(goal),
        }
    }
}

/// Two literals of one fate, the first kept and the last deleted, of which one step does not take both.
fn repeated(fates: &[Fate], above: Option<usize>) -> Option<(usize, usize)> {
    fates.iter().enumerate().find_map(|(kept, &fate)| {
        let places = places(fates, fate);
        let many = if above.map(Fate::Meets) == Some(fate) { RIGHT_LITERALS.into() } else { 1 };
        (places.len() > many).then_some((kept, *places.last()?))
    })
}

/// Where literals of a fate stand.
fn places(fates: &[Fate], fate: Fate) -> Vec<usize> {
    let all = fates.iter().enumerate();
    all.filter(|&(_, &other)| other == fate).map(|(place, _)| place).collect()
}
