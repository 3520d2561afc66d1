//! Files trimmed by the proved function, beside the second implementation: four numbers, every cell and every byte of the output.

use yestrwyn::exported::trim_numbers;
use yestrwyn_second::trim_into;
use yestrwyn_vectors::examples::Example;
use yestrwyn_vectors::random::SplitMix64;
use yestrwyn_vectors::trims::{damaged_trim, random_trim};

use crate::compare::{day_and_file_of, Difference};
use crate::outputs::{OutputLengths, OutputLent};

/// The names of the parts where a difference is shown.
const NAMES: [&str; 6] = [
    "answer of trim",
    "symbols of trim",
    "rows of trim",
    "clauses of trim",
    "bindings of trim",
    "output of trim",
];

/// What both are lent.
#[derive(Default)]
pub struct Trims {
    proved: OutputLent,
    second: OutputLent,
}

impl Trims {
    /// Has both trim a file on a day, with tables, output and answer of some lengths; gives the kind of answer (0 written, 2
    /// refused), nothing if there is no room for one, or where they differ.
    pub fn compare(
        &mut self,
        (day, file): (u16, &[u8]),
        lengths: OutputLengths,
        mark: u16,
    ) -> Result<Option<u32>, Difference> {
        let Trims { proved, second } = self;
        proved.fill(lengths, mark);
        second.fill(lengths, mark);
        let (mut tables, _) = proved.cells.tables();
        trim_numbers(day, file, &mut tables, &mut proved.output, &mut proved.answer);
        second.answered(|tables, output| trim_into(day, file, tables, output).numbers());
        proved.differ(second, NAMES)?;
        Ok(proved.kind())
    }
}

/// The file of a number within a run, with its day: mostly made to be trimmed, whole or damaged; at times any file.
pub fn trim_of(seed: u64) -> Example {
    let mut random = SplitMix64::new(seed ^ 0x7213_0000_0000_0000);
    let own = random.next_u64();
    match random.below(8) {
        0..=4 => random_trim(own),
        5 => damaged_trim(own),
        _ => {
            let (day, file) = day_and_file_of(own);
            Example::on(day, "any", file)
        }
    }
}
