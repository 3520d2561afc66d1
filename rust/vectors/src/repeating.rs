//! Files with rows written again, as a planner writes them that builds its terms on the fly. Clauses and steps
//! stay what they are, so that verdict and readout do too.

use yestrwyn_types::limits::{RECORDS, RECORD_BYTES};
use yestrwyn_types::record::{kind, Record};

use crate::clashing::clashing_file;
use crate::random::{random_file, random_file_of, SplitMix64};

/// A file with rows repeated, and what became of the file that it was made of.
#[derive(Clone, PartialEq, Eq, Debug)]
pub struct Repeated {
    pub file: Vec<u8>,
    /// Where each record of the other file stands, a row for the first time.
    pub records: Vec<u16>,
    /// The number of each row of the other file, where it stands for the first time.
    pub rows: Vec<u16>,
}

/// Every row twice, as far as there is room. The first is made of first rows and the second of second ones;
/// the literals of a clause, and of one clause after another, are on first and second rows in turn.
pub fn rows_twice(file: &[u8]) -> Repeated {
    Repeating::new(file, Way::Twice).whole(file)
}

/// Some rows twice or more, and each row named by any of its numbers.
pub fn rows_at_random(file: &[u8], seed: u64) -> Repeated {
    Repeating::new(file, Way::Random(SplitMix64::new(seed))).whole(file)
}

/// A random file with repeated rows.
pub fn repeating_file(seed: u64) -> Vec<u8> {
    let mut random = SplitMix64::new(seed ^ 0x2e9e_a7ed_0000_0000);
    let own = random.next_u64();
    let file = match random.below(8) {
        0 => random_file_of(own, random.between(60, 200)),
        1 | 2 => clashing_file(own),
        _ => random_file(own),
    };
    rows_at_random(&file, random.next_u64()).file
}

/// How often a row is written, and which of its numbers is named.
enum Way {
    Twice,
    Random(SplitMix64),
}

impl Way {
    /// How often a row is written beside the first time.
    fn again(&mut self) -> usize {
        match self {
            Way::Twice => 1,
            Way::Random(random) => random.below(6).saturating_sub(3) * random.between(1, 2),
        }
    }

    /// Which of so many numbers is named at some turn.
    fn which(&mut self, numbers: usize, turn: usize) -> usize {
        match self {
            Way::Twice => turn % numbers,
            Way::Random(random) => random.below(numbers),
        }
    }
}

/// A file under construction.
struct Repeating {
    way: Way,
    bytes: Vec<u8>,
    records: Vec<u16>,
    /// The numbers of each row of the other file.
    numbers: Vec<Vec<u16>>,
    rows: u16,
    clauses: usize,
    /// How many more records there is room for.
    room: usize,
}

impl Repeating {
    fn new(file: &[u8], way: Way) -> Repeating {
        let room = RECORDS.saturating_sub(file.len() / RECORD_BYTES);
        let (bytes, records, numbers) = (Vec::new(), Vec::new(), Vec::new());
        Repeating { way, bytes, records, numbers, rows: 0, clauses: 0, room }
    }

    /// Goes through a file. Bytes after its last whole record are written as they are.
    fn whole(mut self, file: &[u8]) -> Repeated {
        let parts = file.chunks_exact(RECORD_BYTES);
        let rest = parts.remainder();
        for bytes in parts.filter_map(|part| part.try_into().ok()) {
            let written = self.bytes.len() / RECORD_BYTES;
            self.records.push(u16::try_from(written).unwrap_or(u16::MAX));
            self.record(&Record::from_bytes(bytes));
        }
        self.bytes.extend_from_slice(rest);
        let rows = self.numbers.iter().map(|numbers| numbers[0]).collect();
        Repeated { file: self.bytes, records: self.records, rows }
    }

    /// Writes a record of the other file.
    fn record(&mut self, record: &Record) {
        match record.kind {
            kind::VARIABLE | kind::APPLICATION => self.row(record),
            kind::INPUT => self.input(record),
            _ => self.write(record),
        }
        let clause = [kind::INPUT, kind::RESOLVE, kind::FACTOR, kind::RESOLVE_SEVERAL].contains(&record.kind);
        self.clauses += usize::from(clause);
    }

    /// Writes a row once or more.
    fn row(&mut self, record: &Record) {
        let again = self.way.again().min(self.room);
        self.room -= again;
        let arguments = if record.kind == kind::APPLICATION { usize::from(record.count) } else { 0 };
        let mut numbers = Vec::new();
        for turn in 0..1 + again {
            let mut row = *record;
            for argument in row.fields.iter_mut().skip(1).take(arguments) {
                *argument = self.named(*argument, turn);
            }
            self.write(&row);
            numbers.push(self.rows);
            self.rows = self.rows.saturating_add(1);
        }
        self.numbers.push(numbers);
    }

    /// Writes an input clause.
    fn input(&mut self, record: &Record) {
        let mut clause = *record;
        for (literal, code) in clause.fields.iter_mut().take(usize::from(record.count)).enumerate() {
            let row = self.named(*code / 2, self.clauses + literal).min(u16::MAX / 2);
            *code = 2 * row + *code % 2;
        }
        self.write(&clause);
    }

    /// A number by which a row is named. One that does not exist is named as one that does not either.
    fn named(&mut self, row: u16, turn: usize) -> u16 {
        match self.numbers.get(usize::from(row)) {
            Some(numbers) => numbers[self.way.which(numbers.len(), turn)],
            None => row.saturating_add(self.rows - self.numbers.len() as u16),
        }
    }

    fn write(&mut self, record: &Record) {
        self.bytes.extend_from_slice(&record.to_bytes());
    }
}
