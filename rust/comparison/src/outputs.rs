//! What functions are lent that write a file, a merged, a converted or a trimmed one: tables, an output, and an answer of four numbers.

use yestrwyn_types::limits::FILE_BYTES;
use yestrwyn_types::{Tables, LENGTHS, MERGED_CELLS};
use yestrwyn_vectors::random::SplitMix64;

use crate::compare::{differ, Difference, Lengths, Lent};

/// How many cells each table has and the answer, and how many bytes the output.
#[derive(Clone, Copy, PartialEq, Eq, Debug)]
pub struct OutputLengths {
    pub tables: [usize; 4],
    pub output: usize,
    pub answer: usize,
}

impl OutputLengths {
    /// Tables, output and answer that are longer than they need to be by some cells.
    pub fn longer(by: usize) -> OutputLengths {
        let tables = LENGTHS.map(|length| length + by);
        OutputLengths { tables, output: FILE_BYTES + by, answer: MERGED_CELLS + by }
    }

    /// The lengths that go with a seed: mostly just long enough or longer, at times one part too short.
    pub fn of(seed: u64) -> OutputLengths {
        let mut random = SplitMix64::new(!seed ^ 0x3e26_0000_0000_0000);
        let mut lengths = OutputLengths::longer(random.below(4));
        match random.below(40) {
            0 => lengths.output = FILE_BYTES - 1,
            1 => lengths.output = random.below(FILE_BYTES),
            2 => lengths.answer = random.below(MERGED_CELLS),
            3 => {
                let short = random.below(LENGTHS.len());
                lengths.tables[short] = random.below(LENGTHS[short]);
            }
            _ => {}
        }
        lengths
    }
}

/// The cells and bytes that one of the two is lent, kept between files.
#[derive(Default)]
pub(crate) struct OutputLent {
    pub(crate) cells: Lent,
    pub(crate) output: Vec<u8>,
    pub(crate) answer: Vec<u32>,
}

impl OutputLent {
    /// Cells and bytes that hold marks, so that one moved or cleared is seen.
    pub(crate) fn fill(&mut self, lengths: OutputLengths, mark: u16) {
        self.cells.fill(Lengths { tables: lengths.tables, answer: 0 }, mark);
        self.output.clear();
        // A period that is no power of two, so that bytes moved by records do not look alike.
        self.output.extend((0..lengths.output).map(|place| (mark as usize).wrapping_add(place % 251) as u8));
        self.answer.clear();
        self.answer.extend((0..lengths.answer).map(|cell| u32::from(mark) << 16 | cell as u32));
    }

    /// Writes an answer as the header of the proved functions says, if there is room for it.
    pub(crate) fn answered(&mut self, run: impl FnOnce(&mut Tables<'_>, &mut [u8]) -> [u32; MERGED_CELLS]) {
        let OutputLent { cells, output, answer } = self;
        let Some(numbers) = answer.get_mut(..MERGED_CELLS) else { return };
        numbers.copy_from_slice(&run(&mut cells.tables().0, output));
    }

    /// Where answer, tables or output are not the second implementation's, under the names of the six parts.
    pub(crate) fn differ(&self, second: &OutputLent, names: [&'static str; 6]) -> Result<(), Difference> {
        let [answer, symbols, rows, clauses, bindings, output] = names;
        differ(answer, &self.answer, &second.answer)?;
        self.cells.differ(&second.cells, ["", symbols, rows, clauses, bindings])?;
        differ(output, &self.output, &second.output)
    }

    /// The kind of answer (0 written, 2 refused), or nothing if there is no room for one.
    pub(crate) fn kind(&self) -> Option<u32> {
        self.answer.first().copied().filter(|_| self.answer.len() >= MERGED_CELLS)
    }
}
