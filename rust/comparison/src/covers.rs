//! Which clause covers which by the proved function, beside the second implementation: ten numbers and every cell.

use yestrwyn::exported::covers_numbers;
use yestrwyn_types::limits::RECORD_BYTES;
use yestrwyn_types::record::kind;
use yestrwyn_types::{Cells, ANSWER_CELLS, COVERING_CELLS};
use yestrwyn_vectors::random::SplitMix64;

use crate::compare::{Difference, Lengths, Lent};

/// The names of the parts where a difference is shown.
const NAMES: [&str; 5] =
    ["covering", "symbols of covering", "rows of covering", "clauses of covering", "bindings of covering"];

/// Of a file with more pairs of input clauses so many pairs are drawn.
const DOZEN: usize = 12;

/// The lengths for a covering that go with those for a check: three more cells for the answer.
pub fn for_covering(lengths: Lengths) -> Lengths {
    Lengths { answer: lengths.answer + COVERING_CELLS - ANSWER_CELLS, ..lengths }
}

/// The cells that both are lent, kept between files.
#[derive(Default)]
pub struct Coverings {
    proved: Lent,
    second: Lent,
}

impl Coverings {
    /// Asks both whether one clause covers another, with tables of some lengths; gives the kind of answer (0 no, 1 yes,
    /// 2 refused), nothing if there is no room for one, or where they differ.
    pub fn compare(
        &mut self,
        file: &[u8],
        clauses: [u16; 2],
        lengths: Lengths,
        mark: u16,
    ) -> Result<Option<u16>, Difference> {
        let Coverings { proved, second } = self;
        proved.fill(lengths, mark);
        second.fill(lengths, mark);
        run_proved(file, clauses, proved);
        run_second(file, clauses, second);
        proved.differ(second, NAMES)?;
        Ok(proved.answer.first().copied().filter(|_| lengths.answer >= COVERING_CELLS))
    }
}

fn run_proved(file: &[u8], [c, d]: [u16; 2], lent: &mut Lent) {
    let (mut tables, answer) = lent.tables();
    covers_numbers(file, c, d, &mut tables, answer);
}

/// The second implementation, with its answer written as the header of the proved one says.
fn run_second(file: &[u8], [c, d]: [u16; 2], lent: &mut Lent) {
    let (mut tables, answer) = lent.tables();
    let Some(cells) = answer.get_mut(..COVERING_CELLS) else { return };
    cells.copy_from_slice(&yestrwyn_second::covers_into(file, c, d, &mut tables).numbers());
}

/// The clauses of a file that can be asked about.
pub struct Clauses {
    /// The numbers of the input clauses that stand.
    pub inputs: Vec<u16>,
    /// How many clauses stand, derived ones too.
    pub count: u16,
}

impl Clauses {
    /// Those of a file.
    pub fn of(file: &[u8]) -> Clauses {
        let mut cells = Cells::new();
        // Which clauses stand does not depend on the day.
        let count = yestrwyn_second::check_into(0, file, &mut cells.lend()).clauses;
        let is_input = |record: u16| file.get(RECORD_BYTES * usize::from(record)) == Some(&kind::INPUT);
        let records = cells.clauses.chunks_exact(5).zip(0..count);
        let inputs = records.filter(|(clause, _)| is_input(clause[0])).map(|(_, number)| number).collect();
        Clauses { inputs, count }
    }

    /// Every two input clauses, each with itself too.
    pub fn every_two(&self) -> Vec<[u16; 2]> {
        self.inputs.iter().flat_map(|&c| self.inputs.iter().map(move |&d| [c, d])).collect()
    }

    /// Two clauses drawn at random: mostly input clauses, at times any that stands or comes next, or any number.
    pub fn some_two(&self, random: &mut SplitMix64) -> [u16; 2] {
        [(); 2].map(|()| match random.below(16) {
            0 => random.next_u64() as u16,
            1 => random.below(usize::from(self.count) + 2) as u16,
            _ => self.inputs.get(random.below(self.inputs.len())).copied().unwrap_or(0),
        })
    }

    /// Every two input clauses, or a dozen pairs drawn at random where these are more.
    pub fn a_dozen(&self, random: &mut SplitMix64) -> Vec<[u16; 2]> {
        if self.inputs.len().pow(2) <= DOZEN {
            return self.every_two();
        }
        (0..DOZEN).map(|_| self.some_two(random)).collect()
    }
}
