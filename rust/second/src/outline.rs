//! Outlines: two rows compared as they are written, before a step is unified. No binding is followed and no
//! index is read, so what clashes here clashes whatever the variables become.

use yestrwyn_types::limits::OUTLINE_PAIRS;

use crate::expression::Node;

/// The stack of a comparison, kept between steps so that a step allocates nothing.
#[derive(Default)]
pub struct Outlines {
    pairs: Vec<(u16, u16)>,
}

impl Outlines {
    /// Are there applications of different symbols at some place of both rows, with equal symbols at all places
    /// above it? It looks depth first, arguments in order, and does not open a pair of equal rows. The pair that
    /// would be the 4,097th is not taken up, and what was not compared by then counts as no clash.
    pub fn clash(&mut self, nodes: &[Node], left: u16, right: u16) -> bool {
        self.pairs.clear();
        self.pairs.push((left, right));
        for _ in 0..OUTLINE_PAIRS {
            let Some((left, right)) = self.pairs.pop() else { return false };
            if left != right && self.opened_clash(nodes, left, right) {
                return true;
            }
        }
        false
    }

    /// Do two different rows clash at their tops? Of two applications of one symbol the arguments come next, the
    /// first on top of the stack; a variable on either side agrees with whatever stands on the other.
    fn opened_clash(&mut self, nodes: &[Node], left: u16, right: u16) -> bool {
        let pair = (nodes.get(usize::from(left)), nodes.get(usize::from(right)));
        let (
            Some(Node::Application { symbol: f, count, arguments: ls }),
            Some(Node::Application { symbol: g, arguments: rs, .. }),
        ) = pair
        else {
            return false;
        };
        if f != g {
            return true;
        }
        let arguments = ls.iter().copied().zip(rs.iter().copied());
        self.pairs.extend(arguments.take(usize::from(*count)).rev());
        false
    }
}
