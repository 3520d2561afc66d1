//! Places in terms, kept as a tree so that each takes two numbers however deep it is.

/// A place, by its number among the places of a walk.
pub type Place = usize;

/// The place of the whole term.
pub const TOP: Place = 0;

/// The places that a walk has come to.
pub struct Places {
    /// Of each place the one above it and the argument that it is there, from 1. The first is the top.
    steps: Vec<(Place, u8)>,
}

impl Places {
    /// The top alone.
    pub fn new() -> Places {
        Places { steps: vec![(TOP, 0)] }
    }

    /// The place of an argument, from 1, of what is at a place.
    pub fn argument(&mut self, above: Place, argument: u8) -> Place {
        self.steps.push((above, argument));
        self.steps.len() - 1
    }

    /// The arguments that lead from the top to a place.
    pub fn path(&self, place: Place) -> Vec<u8> {
        let mut path = Vec::new();
        let mut at = place;
        while at != TOP {
            let (above, argument) = self.steps[at];
            path.push(argument);
            at = above;
        }
        path.reverse();
        path
    }
}
