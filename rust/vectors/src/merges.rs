//! The stored vectors of merges: which pairs of files there are, and what each gives, as text. The format is described in
//! `README.md` beside the results.

use yestrwyn_second::merge_into;
use yestrwyn_types::limits::FILE_BYTES;
use yestrwyn_types::Cells;

use crate::examples::merges::{self, Merge};
use crate::merging::merging_files;
use crate::random::damage;
use crate::stored::{file_lines, length_and_hash, line};

/// The name of the group, by which its results are stored.
pub const GROUP: &str = "merges";
/// Number of random pairs, and of damaged ones.
const RANDOM_PAIRS: u64 = 60;
const DAMAGED_PAIRS: u64 = 20;

/// All pairs that are stored: the named ones, random ones and damaged ones.
pub fn pairs() -> Vec<Merge> {
    let mut all = merges::examples();
    all.extend((0..RANDOM_PAIRS).map(random_pair));
    all.extend((0..DAMAGED_PAIRS).map(damaged_pair));
    all
}

/// The random pair of a seed.
pub fn random_pair(seed: u64) -> Merge {
    let [first, second] = merging_files(seed);
    Merge::new(&format!("merging-{seed}"), first, second)
}

/// The random pair of a seed with the first file damaged, or the second, or both.
pub fn damaged_pair(seed: u64) -> Merge {
    let Merge { first, second, .. } = random_pair(seed);
    let (first, second) = match seed % 3 {
        0 => (damage(&first, seed), second),
        1 => (first, damage(&second, seed)),
        _ => (damage(&first, seed), damage(&second, !seed)),
    };
    Merge::new(&format!("damaged-{seed}"), first, second)
}

/// What every pair gives, as text.
pub fn expected(pairs: &[Merge]) -> String {
    let mut text = String::new();
    for pair in pairs {
        describe(&mut text, pair);
    }
    text
}

/// One vector's part of the text.
fn describe(text: &mut String, pair: &Merge) {
    let mut output = vec![0; FILE_BYTES];
    let merged = merge_into(&pair.first, &pair.second, &mut Cells::new().lend(), &mut output);
    line(text, "merge", &pair.name);
    file_lines(text, "first", &pair.first);
    file_lines(text, "second", &pair.second);
    line(text, "answer", &merged.numbers().map(|number| number.to_string()).join(" "));
    if let Some(written) = merged.length().and_then(|length| output.get(..length)) {
        line(text, "merged", &length_and_hash(written));
    }
}
