//! The proved check, plain and for services, beside the second implementation: every number of the answer and
//! every cell.

use std::fmt;

use yestrwyn::exported::check_numbers;
use yestrwyn_types::{Tables, ANSWER_CELLS, LENGTHS};
use yestrwyn_vectors::dated::with_windows;
use yestrwyn_vectors::random::SplitMix64;
use yestrwyn_vectors::repeating::rows_at_random;
use yestrwyn_vectors::{clashing_file, clashing_several_file, covering_file, damage, dated_file};
use yestrwyn_vectors::{
    hiding_file, random_file, random_file_of, repeating_file, several_file, several_file_of,
};

use crate::services::Services;

/// The names of the parts where a difference is shown.
const NAMES: [&str; 5] = ["answer", "symbols", "rows", "clauses", "bindings"];

/// How many cells each table has, and the answer.
#[derive(Clone, Copy, PartialEq, Eq, Debug)]
pub struct Lengths {
    pub tables: [usize; 4],
    pub answer: usize,
}

impl Lengths {
    /// Tables and an answer that are longer than they need to be by some cells.
    pub fn longer(by: usize) -> Lengths {
        Lengths { tables: LENGTHS.map(|length| length + by), answer: ANSWER_CELLS + by }
    }
}

/// Where the two differ.
#[derive(Clone, PartialEq, Eq, Debug)]
pub struct Difference {
    pub part: &'static str,
    pub cell: usize,
    pub proved: u32,
    pub second: u32,
}

impl fmt::Display for Difference {
    fn fmt(&self, out: &mut fmt::Formatter<'_>) -> fmt::Result {
        write!(out, "{}[{}]: proved {}, second {}", self.part, self.cell, self.proved, self.second)
    }
}

/// The cells that each of them is lent, kept between files so that none is made anew.
#[derive(Default)]
pub struct Lent {
    pub(crate) tables: [Vec<u16>; 4],
    pub(crate) answer: Vec<u16>,
}

impl Lent {
    /// The tables, as they are lent, and the cells of the answer.
    pub(crate) fn tables(&mut self) -> (Tables<'_>, &mut Vec<u16>) {
        let [symbols, rows, clauses, bindings] = &mut self.tables;
        (Tables { symbols, rows, clauses, bindings }, &mut self.answer)
    }

    /// Cells that each hold a mark of their own, so that a cell moved or cleared is seen.
    pub(crate) fn fill(&mut self, lengths: Lengths, mark: u16) {
        for (table, length) in self.tables.iter_mut().zip(lengths.tables) {
            marked(table, length, mark);
        }
        marked(&mut self.answer, lengths.answer, mark);
    }

    /// Where the answer or a table is not the second implementation's, under the names of the parts.
    pub(crate) fn differ(&self, second: &Lent, names: [&'static str; 5]) -> Result<(), Difference> {
        let [answer, tables @ ..] = names;
        differ(answer, &self.answer, &second.answer)?;
        let mut parts = tables.into_iter().zip(self.tables.iter().zip(&second.tables));
        parts.try_for_each(|(name, (ours, theirs))| differ(name, ours, theirs))
    }
}

/// Fills a part with marks, which differ from cell to cell.
fn marked(cells: &mut Vec<u16>, length: usize, mark: u16) {
    cells.clear();
    cells.extend((0..length).map(|cell| mark.wrapping_add(cell as u16)));
}

/// The cells of both, and a workspace for the check for services.
#[derive(Default)]
pub struct Pair {
    proved: Lent,
    second: Lent,
    services: Services,
}

impl Pair {
    /// Checks a file on a day by both, with tables of some lengths, and by the check for services; gives the kind
    /// of answer (0 open, 1 accepted, 2 refused), nothing if there is no room for one, or where they differ.
    pub fn compare(
        &mut self,
        day: u16,
        file: &[u8],
        lengths: Lengths,
        mark: u16,
    ) -> Result<Option<u16>, Difference> {
        let Pair { proved, second, services } = self;
        proved.fill(lengths, mark);
        second.fill(lengths, mark);
        run_proved(day, file, proved);
        run_second(day, file, second);
        proved.differ(second, NAMES)?;
        services.compare(day, file, lengths, mark, second)?;
        Ok(proved.answer.first().copied().filter(|_| lengths.answer >= ANSWER_CELLS))
    }
}

/// One comparison with cells of its own.
pub fn compare(day: u16, file: &[u8], lengths: Lengths) -> Result<(), Difference> {
    Pair::default().compare(day, file, lengths, 0xabcd).map(|_| ())
}

fn run_proved(day: u16, file: &[u8], lent: &mut Lent) {
    let (mut tables, answer) = lent.tables();
    check_numbers(day, file, &mut tables, answer);
}

/// The second implementation, with its answer written as the header of the proved one says.
fn run_second(day: u16, file: &[u8], lent: &mut Lent) {
    let (mut tables, answer) = lent.tables();
    let Some(cells) = answer.get_mut(..ANSWER_CELLS) else { return };
    cells.copy_from_slice(&yestrwyn_second::check_into(day, file, &mut tables).numbers());
}

/// Where two parts differ: bytes, cells or numbers.
pub(crate) fn differ<T: Copy + PartialEq + Into<u32>>(
    part: &'static str,
    proved: &[T],
    second: &[T],
) -> Result<(), Difference> {
    if proved == second {
        return Ok(());
    }
    let cell = proved.iter().zip(second).position(|(one, other)| one != other).unwrap_or(0);
    Err(Difference { part, cell, proved: proved[cell].into(), second: second[cell].into() })
}

/// The day and the file of a number within a run: a file with windows on a day near their ends, or any other file, at
/// times with windows put in, on any day.
pub fn day_and_file_of(seed: u64) -> (u16, Vec<u8>) {
    let mut random = SplitMix64::new(seed ^ 0xda75_0000_0000_0000);
    let (own, day) = (random.next_u64(), random.next_u64() as u16);
    match random.below(16) {
        0..=3 => dated_file(own),
        4 => {
            let (day, file) = dated_file(own);
            (day, damage(&file, random.next_u64()))
        }
        5 | 6 => (day, with_windows(&file_of(seed), day, own)),
        _ => (day, file_of(seed)),
    }
}

/// The file of a number within a run: random files, damaged ones, longer ones, clashing ones, ones with repeated
/// rows, any bytes, the same with steps on several right literals, files of clauses that cover one another, and files of
/// which some literals are hidden.
fn file_of(seed: u64) -> Vec<u8> {
    let mut random = SplitMix64::new(seed);
    let own = random.next_u64();
    match random.below(32) {
        0..=6 => random_file(own),
        7..=10 => damage(&random_file(own), random.next_u64()),
        11 | 12 => damage(&damage(&random_file(own), random.next_u64()), random.next_u64()),
        13 => random_file_of(own, random.between(60, 300)),
        14 => damage(&random_file_of(own, random.between(60, 300)), random.next_u64()),
        15 => clashing_file(own),
        16 => damage(&clashing_file(own), random.next_u64()),
        17 => repeating_file(own),
        18 => damage(&repeating_file(own), random.next_u64()),
        19 => any_bytes(&mut random),
        20..=22 => several_file(own),
        23 => damage(&several_file(own), random.next_u64()),
        24 => several_file_of(own, random.between(60, 300)),
        25 => rows_at_random(&several_file(own), random.next_u64()).file,
        26 => clashing_several_file(own),
        27 => damage(&clashing_several_file(own), random.next_u64()),
        28 | 29 => covering_file(own),
        30 => hiding_file(own),
        _ => damage(&covering_file(own), random.next_u64()),
    }
}

/// Any bytes: of all values, or of small ones in whole records, which come further.
fn any_bytes(random: &mut SplitMix64) -> Vec<u8> {
    let length = random.below(400);
    if random.one_in(2) {
        return (0..length).map(|_| random.below(256) as u8).collect();
    }
    (0..length / 16 * 16).map(|place| if place % 2 == 1 { 0 } else { random.below(9) as u8 }).collect()
}

/// The lengths that go with a seed: mostly just long enough or longer, at times one part too short.
pub fn lengths_of(seed: u64) -> Lengths {
    let mut random = SplitMix64::new(!seed);
    let mut lengths = Lengths::longer(random.below(4));
    if random.one_in(16) {
        let short = random.below(5);
        match lengths.tables.get_mut(short) {
            Some(length) => *length = random.below(LENGTHS[short]),
            None => lengths.answer = random.below(ANSWER_CELLS),
        }
    }
    lengths
}
