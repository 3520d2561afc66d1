//! Outlines: two atoms compared as they are written, before a step unifies them.

use yestrwyn_types::limits::{ARITY, OUTLINE_PAIRS};

use crate::model::{Model, Node};
use crate::places::{Places, TOP};

/// Two rows at the same place of two atoms that have different symbols.
#[derive(Clone, PartialEq, Eq, Debug)]
pub struct OutlineClash {
    /// The arguments that lead to the place, from the top.
    pub path: Vec<u8>,
    /// The row in the left atom.
    pub left: u16,
    /// The row in the right atom.
    pub right: u16,
}

/// The first clash of the outlines of two rows, depth first and arguments in order, among the first 4,096 pairs. A pair of equal rows is
/// counted and not opened.
pub fn clash(model: &Model<'_>, left: u16, right: u16) -> Option<OutlineClash> {
    let mut places = Places::new();
    let mut open = vec![(left, right, TOP)];
    for _ in 0..OUTLINE_PAIRS {
        let (left, right, place) = open.pop()?;
        let (Node::Application { symbol: f, arguments: ls }, Node::Application { symbol: g, arguments: rs }) =
            (model.node(left), model.node(right))
        else {
            continue;
        };
        if f != g {
            return Some(OutlineClash { path: places.path(place), left, right });
        }
        if left != right {
            let pairs = ls.iter().zip(rs).zip(1..=ARITY).rev();
            open.extend(pairs.map(|((&l, &r), argument)| (l, r, places.argument(place, argument))));
        }
    }
    None
}
