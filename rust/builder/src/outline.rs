//! Two terms compared as they are written, before a step is unified, by the rules of the format.

use yestrwyn_types::limits::OUTLINE_PAIRS;
use yestrwyn_types::record::{kind, Record};

/// Do two rows hold different symbols at some place, with equal symbols at every place above it? Looked for in
/// no more pairs than the format allows, first arguments first; equal rows are not opened.
pub(crate) fn outlines_clash(rows: &[Record], left: u16, right: u16) -> bool {
    let mut pairs = vec![(left, right)];
    for _ in 0..OUTLINE_PAIRS {
        let Some((left, right)) = pairs.pop() else { return false };
        let Some([l, r]) = opened(rows, left, right) else { continue };
        if l.fields[0] != r.fields[0] {
            return true;
        }
        let arguments = l.fields.into_iter().zip(r.fields).skip(1).take(usize::from(l.count));
        let first = pairs.len();
        pairs.extend(arguments);
        pairs[first..].reverse();
    }
    false
}

/// The records of a pair that is opened: two different rows, both applications.
fn opened(rows: &[Record], left: u16, right: u16) -> Option<[Record; 2]> {
    let pair = [*rows.get(usize::from(left))?, *rows.get(usize::from(right))?];
    let both = left != right && pair.iter().all(|record| record.kind == kind::APPLICATION);
    both.then_some(pair)
}
