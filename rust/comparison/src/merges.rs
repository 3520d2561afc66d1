//! Two files merged by the proved function, beside the second implementation: four numbers, every cell and every byte of the
//! output.

use yestrwyn::exported::merge_numbers;
use yestrwyn_vectors::examples::merges::Merge;
use yestrwyn_vectors::merges::{damaged_pair, random_pair};
use yestrwyn_vectors::random::SplitMix64;

use crate::compare::{day_and_file_of, Difference};
use crate::outputs::{OutputLengths, OutputLent};

/// The names of the parts where a difference is shown.
const NAMES: [&str; 6] = [
    "answer of merge",
    "symbols of merge",
    "rows of merge",
    "clauses of merge",
    "bindings of merge",
    "output of merge",
];

/// What both are lent.
#[derive(Default)]
pub struct Merges {
    proved: OutputLent,
    second: OutputLent,
}

impl Merges {
    /// Has both merge two files, with tables, output and answer of some lengths; gives the kind of answer (0 written, 2
    /// refused), nothing if there is no room for one, or where they differ.
    pub fn compare(
        &mut self,
        [first, other]: [&[u8]; 2],
        lengths: OutputLengths,
        mark: u16,
    ) -> Result<Option<u32>, Difference> {
        let Merges { proved, second } = self;
        proved.fill(lengths, mark);
        second.fill(lengths, mark);
        let (mut tables, _) = proved.cells.tables();
        merge_numbers(first, other, &mut tables, &mut proved.output, &mut proved.answer);
        second.answered(|tables, output| yestrwyn_second::merge_into(first, other, tables, output).numbers());
        proved.differ(second, NAMES)?;
        Ok(proved.kind())
    }
}

/// The pair of a number within a run: mostly made to be merged, whole or damaged; at times any two files, or one twice.
pub fn pair_of(seed: u64) -> Merge {
    let mut random = SplitMix64::new(seed ^ 0x3e26_ed00_0000_0000);
    let own = random.next_u64();
    match random.below(16) {
        0..=8 => random_pair(own),
        9..=12 => damaged_pair(own),
        13 => {
            let Merge { name, first, .. } = random_pair(own);
            Merge::new(&name, first.clone(), first)
        }
        14 => Merge::new("any", day_and_file_of(own).1, day_and_file_of(random.next_u64()).1),
        _ => Merge::new("any with a part", day_and_file_of(own).1, random_pair(own).second),
    }
}
