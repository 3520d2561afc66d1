//! Slow files by their shape: how many uses of a leaf there are, what each binds and how often it is
//! factored, how much work a step does, and how many literals of what size a line has.

mod making;

use yestrwyn_types::limits::{INDEX, RECORDS};

use crate::random::SplitMix64;
use making::Making;

/// What the last steps of a file do, again and again.
#[derive(Clone, Copy, PartialEq, Eq, Debug)]
pub enum Ending {
    /// A factor: its two atoms hold equal terms.
    Factor,
    /// A resolution with a unit clause that holds an equal term.
    Pairs,
    /// A resolution with a unit clause that holds a variable.
    Occurrence,
}

/// The measures of a slow file. Every clause of it but the last ones is made once; the last steps are all
/// the same.
#[derive(Clone, Copy, PartialEq, Eq, Debug)]
pub struct Shape {
    /// Variables that a factor binds to a constant in each use of the leaf.
    pub ground: u16,
    /// Further variables, each bound from one use of the leaf to the next.
    pub linked: u16,
    /// Further factors of the leaf that bind nothing, 0 to 4.
    pub factors: u16,
    /// Uses of the leaf.
    pub uses: u16,
    /// Uses of a clause that adds five literals each, 0 to 25.
    pub wide: u16,
    /// Symbols and variables in each of these literals.
    pub occurrences: u16,
    /// How many different variables these literals have.
    pub variety: u16,
    /// Size of the term on which the last steps work.
    pub work: u16,
    /// The last steps.
    pub ending: Ending,
    /// Do the uses of the leaf stand to the left of the wide ones? Variables are bound from left to right,
    /// so that those of the first uses have a long way to their values.
    pub leaf_left: bool,
    /// Does the use that is worked on stand before all others, or after them?
    pub worked_first: bool,
    /// Symbols that nothing uses, so that those in use have longer numbers.
    pub unused: u16,
}

/// What a shape's values may be at most.
const MOST: [u16; 9] = [64, 64, 4, INDEX, 25, 66, 64, 16_383, 1000];

impl Shape {
    /// The values, in the order of [`MOST`].
    fn values(&mut self) -> [&mut u16; 9] {
        [
            &mut self.ground,
            &mut self.linked,
            &mut self.factors,
            &mut self.uses,
            &mut self.wide,
            &mut self.occurrences,
            &mut self.variety,
            &mut self.work,
            &mut self.unused,
        ]
    }

    /// Any shape.
    pub fn random(random: &mut SplitMix64) -> Shape {
        let ending = [Ending::Factor, Ending::Pairs, Ending::Occurrence][random.below(3)];
        let mut shape = Shape {
            ground: 0,
            linked: 0,
            factors: 0,
            uses: 1,
            wide: 0,
            occurrences: 1,
            variety: 1,
            work: 1,
            ending,
            leaf_left: random.one_in(2),
            worked_first: random.one_in(2),
            unused: 0,
        };
        for (value, most) in shape.values().into_iter().zip(MOST) {
            *value = random.below(usize::from(most) + 1) as u16;
        }
        shape.fitted()
    }

    /// A shape that differs in one to three values.
    pub fn altered(&self, random: &mut SplitMix64) -> Shape {
        let mut shape = *self;
        for _ in 0..random.between(1, 3) {
            match random.below(13) {
                9 => shape.ending = [Ending::Factor, Ending::Pairs, Ending::Occurrence][random.below(3)],
                10 => shape.leaf_left = !shape.leaf_left,
                11 => shape.worked_first = !shape.worked_first,
                12 => shape = shape.at_an_end(random),
                place => {
                    let most = MOST[place];
                    let value = &mut *shape.values()[place];
                    let by = random.between(1, usize::from(most) / 4 + 1) as u16;
                    let up = random.one_in(2);
                    *value = if up { value.saturating_add(by).min(most) } else { value.saturating_sub(by) };
                }
            }
        }
        shape.fitted()
    }

    /// One value at its least or at its most.
    fn at_an_end(mut self, random: &mut SplitMix64) -> Shape {
        let place = random.below(MOST.len());
        *self.values()[place] = if random.one_in(2) { MOST[place] } else { 0 };
        self
    }

    /// The same within the limits that its values have together.
    fn fitted(mut self) -> Shape {
        self.linked = self.linked.min(64 - self.ground);
        self.occurrences = self.occurrences.max(1);
        self.variety = self.variety.max(1);
        self.work = self.work.max(1);
        // Beside the leaf and the wide clauses there are one use that is worked on, and perhaps a unit clause.
        let unit = u16::from(self.ending != Ending::Factor);
        self.uses = self.uses.clamp(1, INDEX - self.wide - 1 - unit);
        self
    }

    /// The file, with as many last steps as fit.
    pub fn file(&self) -> Vec<u8> {
        self.shortened(RECORDS)
    }

    /// The same with no more last steps than a number.
    pub fn shortened(&self, steps: usize) -> Vec<u8> {
        Making::new(self).file(steps)
    }
}
