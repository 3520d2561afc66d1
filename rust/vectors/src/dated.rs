//! Random files with records of kind 8, each with a day near the ends of their windows.

use yestrwyn_second::checker::Checker;
use yestrwyn_second::clause::Origin;
use yestrwyn_types::limits::{RECORDS, RECORD_BYTES};
use yestrwyn_types::record::{kind, Record};

use crate::random::{random_file, random_file_of, several_file, SplitMix64};
use crate::repeating::repeating_file;

/// A day, and a random file whose windows begin and end near it: plain, with steps on several right literals, with
/// repeated rows, or longer.
pub fn dated_file(seed: u64) -> (u16, Vec<u8>) {
    let mut random = SplitMix64::new(seed ^ 0xda7e_d000_0000_0000);
    let own = random.next_u64();
    let file = match random.below(8) {
        0 => random_file_of(own, random.between(60, 150)),
        1 | 2 => repeating_file(own),
        3..=5 => several_file(own),
        _ => random_file(own),
    };
    let day = drawn_day(&mut random);
    (day, with_windows(&file, day, random.next_u64()))
}

/// Any day, or one of the first and the last.
fn drawn_day(random: &mut SplitMix64) -> u16 {
    match random.below(6) {
        0 => random.below(3) as u16,
        1 => u16::MAX - random.below(3) as u16,
        _ => random.below(usize::from(u16::MAX) + 1) as u16,
    }
}

/// A file with windows put in between its records, most of them around a day. None is put in after a record that does not
/// stand, and seldom one that does not stand itself.
pub fn with_windows(file: &[u8], day: u16, seed: u64) -> Vec<u8> {
    let mut putting = Putting {
        random: SplitMix64::new(seed),
        day,
        checker: Checker::new(),
        bytes: Vec::new(),
        stands: true,
    };
    let records = file.chunks_exact(RECORD_BYTES);
    let (rest, mut left) = (records.remainder(), records.len());
    // In some files few clauses have a window, in others nearly all.
    let seldom = putting.random.between(2, 12);
    for record in records {
        putting.write(record);
        left -= 1;
        let room = putting.bytes.len() / RECORD_BYTES + left < RECORDS;
        if putting.stands && room && putting.random.one_in(seldom) {
            putting.window();
        }
    }
    putting.bytes.extend_from_slice(rest);
    putting.bytes
}

/// A file under construction, with a checker that has read the same records.
struct Putting {
    random: SplitMix64,
    day: u16,
    checker: Checker,
    bytes: Vec<u8>,
    /// Do all records so far stand?
    stands: bool,
}

impl Putting {
    /// Writes a record.
    fn write(&mut self, record: &[u8]) {
        self.bytes.extend_from_slice(record);
        let read = record.try_into().is_ok_and(|bytes| self.checker.record(bytes).is_ok());
        self.stands &= read;
    }

    /// Puts a window in, for some input clause if there is one.
    fn window(&mut self) {
        let is_input = |number: &u16| {
            let clause = self.checker.clauses().get(usize::from(*number));
            clause.is_some_and(|clause| matches!(clause.origin, Origin::Input(_)))
        };
        let clauses = self.checker.clauses().len() as u16;
        let inputs: Vec<u16> = (0..clauses).filter(is_input).collect();
        let spoiled = self.random.one_in(60);
        let drawn = self.random.below(inputs.len());
        let Some(&clause) = inputs.get(drawn) else { return };
        let [first, last] = self.days();
        let mut record = Record::new(kind::WINDOW, 0, &[clause, first, last]);
        if spoiled {
            self.spoil(&mut record, clauses);
        }
        self.write(&record.to_bytes());
    }

    /// A first and a last day; two windows of three have the day within them.
    fn days(&mut self) -> [u16; 2] {
        let [before, after] = [0; 2].map(|_| self.random.below(3) as u16);
        let [near, far] = [self.day.saturating_sub(before), self.day.saturating_add(after)];
        match self.random.below(12) {
            0 => [0, u16::MAX],
            1 => [0, near],
            2 => [near, u16::MAX],
            3 | 4 => [self.day.saturating_add(1), far.saturating_add(1)],
            5 | 6 => [near.saturating_sub(1), self.day.saturating_sub(1)],
            _ => [near, far],
        }
    }

    /// Another clause, crossed days, or a field or byte that should be zero.
    fn spoil(&mut self, record: &mut Record, clauses: u16) {
        match self.random.below(5) {
            0 => record.fields[0] = clauses,
            1 => record.fields[0] = self.random.below(usize::from(clauses)) as u16,
            2 => record.fields[1] = record.fields[2].saturating_add(1),
            3 => record.fields[3 + self.random.below(4)] = 1,
            _ => record.count = 1,
        }
    }
}
