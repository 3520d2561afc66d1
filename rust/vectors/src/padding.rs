//! Files with records put in that their proof does not use, as planners leave them: symbols, rows, clauses, steps, days of such
//! clauses and days that are superseded. Rows are repeated too, and named by any of their numbers.

use std::collections::HashMap;

use yestrwyn_second::{check, trim};
use yestrwyn_types::limits::{RECORDS, RECORD_BYTES};
use yestrwyn_types::record::{kind, read, Record};

use crate::dated::dated_file;
use crate::random::SplitMix64;
use crate::sketch::Sketch;

/// A day, and a random file made to be trimmed: of some files with days one that is accepted, if any is, mostly with unused
/// records and seldom with none; sometimes on the day after.
pub fn trimming_file(seed: u64) -> (u16, Vec<u8>) {
    let mut random = SplitMix64::new(seed ^ 0x7219_0000_0000_0000);
    let tries = random.between(1, 12);
    let (mut day, mut file) = dated_file(random.next_u64());
    for _ in 1..tries {
        if check(day, &file).verdict.is_accepted() {
            break;
        }
        (day, file) = dated_file(random.next_u64());
    }
    let later = random.one_in(12);
    if check(day, &file).verdict.is_accepted() {
        file = match random.below(10) {
            0 => file,
            1 => trim(day, &file).unwrap_or(file),
            _ => padded(&file, random.next_u64()),
        };
    }
    (if later { day.wrapping_add(1) } else { day }, file)
}

/// A file that stands, with unused records put in between its own as far as there is room. The accepted clause is the same on every
/// day: what is put in makes no empty clause before one that is there, and no days that count for a clause of the file.
pub fn padded(file: &[u8], seed: u64) -> Vec<u8> {
    let mut padding = Padding::new(file, seed);
    // In some files little is put in, in others most of what there is.
    let often = padding.random.between(1, 8);
    let mut left = file.len() / RECORD_BYTES;
    for (place, record) in (0..).map_while(|number| Some((number, read(file, number)?))) {
        while !padding.random.one_in(often) && padding.file.bytes().len() / RECORD_BYTES + left < RECORDS {
            padding.unused(place);
        }
        padding.own(&record);
        left -= 1;
    }
    padding.file.finish()
}

/// A file under construction, and what became of the one that it is made of.
struct Padding {
    random: SplitMix64,
    file: Sketch,
    /// The number of each symbol and of each clause.
    symbols: Vec<u16>,
    clauses: Vec<u16>,
    /// Each row as it was, and the numbers that it has, the first and repeats.
    rows: Vec<(Record, Vec<u16>)>,
    /// The input clauses, by their old numbers, and the steps as they were.
    inputs: Vec<u16>,
    steps: Vec<Record>,
    /// The last record of days for each clause, by the old numbers of both.
    last_days: HashMap<u16, u16>,
    /// Symbols and input clauses that were put in, and rows that can be the atom of a literal.
    unused_symbols: Vec<(u16, u8)>,
    unused_inputs: Vec<u16>,
    atoms: Vec<u16>,
}

impl Padding {
    fn new(file: &[u8], seed: u64) -> Padding {
        let records = (0..).map_while(|number| Some((number, read(file, number)?)));
        let windows = records.filter(|(_, record)| record.kind == kind::WINDOW);
        Padding {
            random: SplitMix64::new(seed),
            file: Sketch::new(),
            symbols: Vec::new(),
            clauses: Vec::new(),
            rows: Vec::new(),
            inputs: Vec::new(),
            steps: Vec::new(),
            last_days: windows.map(|(number, record)| (record.fields[0], number)).collect(),
            unused_symbols: Vec::new(),
            unused_inputs: Vec::new(),
            atoms: Vec::new(),
        }
    }

    /// Writes a record of the other file.
    fn own(&mut self, record: &Record) {
        let renumbered = self.renumbered(record);
        let number = self.file.raw(renumbered);
        match record.kind {
            kind::SYMBOL => self.symbols.push(number),
            kind::VARIABLE | kind::APPLICATION => {
                self.rows.push((*record, vec![number]));
                self.atoms.extend((record.kind == kind::APPLICATION).then_some(number));
            }
            kind::INPUT => {
                self.inputs.push(self.clauses.len() as u16);
                self.clauses.push(number);
            }
            kind::RESOLVE | kind::FACTOR | kind::RESOLVE_SEVERAL => {
                self.steps.push(*record);
                self.clauses.push(number);
            }
            _ => {}
        }
    }

    /// A record with the numbers that there are now.
    fn renumbered(&mut self, record: &Record) -> Record {
        let mut fields = record.fields;
        let count = usize::from(record.count);
        match record.kind {
            kind::APPLICATION => {
                fields[0] = self.symbols[usize::from(fields[0])];
                fields[1..=count].iter_mut().for_each(|row| *row = self.row(*row));
            }
            kind::INPUT => {
                fields[..count].iter_mut().for_each(|code| *code = 2 * self.row(*code / 2) + *code % 2);
            }
            kind::RESOLVE | kind::RESOLVE_SEVERAL => {
                [fields[0], fields[2]] =
                    [fields[0], fields[2]].map(|clause| self.clauses[usize::from(clause)]);
            }
            kind::FACTOR | kind::WINDOW => fields[0] = self.clauses[usize::from(fields[0])],
            _ => {}
        }
        Record { fields, ..*record }
    }

    /// Some number of a row.
    fn row(&mut self, row: u16) -> u16 {
        let numbers = &self.rows[usize::from(row)].1;
        numbers[self.random.below(numbers.len())]
    }

    /// Puts in something unused, before a record of the other file, if what is drawn can be had.
    fn unused(&mut self, before: u16) {
        match self.random.below(16) {
            0 | 1 => self.unused_symbol(),
            2..=4 => self.unused_row(),
            5..=7 => self.repeated_row(),
            8..=10 => self.unused_input(),
            11 | 12 => self.unused_step(),
            13 => self.unused_days(),
            _ => self.superseded_days(before),
        }
    }

    fn unused_symbol(&mut self) {
        let arity = self.random.below(4) as u8;
        self.unused_symbols.push((self.file.symbol(arity), arity));
    }

    /// A row of a symbol that was put in, so that it equals no row of the other file.
    fn unused_row(&mut self) {
        let drawn = self.random.below(self.unused_symbols.len());
        let Some(&(symbol, arity)) = self.unused_symbols.get(drawn) else { return self.unused_symbol() };
        if arity > 0 && self.rows.is_empty() {
            return self.unused_symbol();
        }
        let mut given = vec![symbol];
        for _ in 0..arity {
            let row = self.random.below(self.rows.len()) as u16;
            given.push(self.row(row));
        }
        self.atoms.push(self.file.fields(kind::APPLICATION, arity, &given));
    }

    /// A row of the other file again. What names it may take this number from now on.
    fn repeated_row(&mut self) {
        let drawn = self.random.below(self.rows.len());
        let Some(&(record, _)) = self.rows.get(drawn) else { return self.unused_symbol() };
        let again = self.renumbered(&record);
        let number = self.file.raw(again);
        self.rows[drawn].1.push(number);
    }

    fn unused_input(&mut self) {
        if self.atoms.is_empty() {
            return self.unused_symbol();
        }
        let count = self.random.between(1, 4);
        let mut literals = Vec::new();
        for _ in 0..count {
            literals.push((self.random.one_in(2), self.atoms[self.random.below(self.atoms.len())]));
        }
        self.unused_inputs.push(self.file.clause_of_rows(&literals));
    }

    /// A step of the other file again: it stands as the first does, and nothing names what it makes.
    fn unused_step(&mut self) {
        let drawn = self.random.below(self.steps.len());
        let Some(&record) = self.steps.get(drawn) else { return self.unused_input() };
        let again = self.renumbered(&record);
        self.file.raw(again);
    }

    /// Days of an input clause that was put in.
    fn unused_days(&mut self) {
        let drawn = self.random.below(self.unused_inputs.len());
        let Some(&clause) = self.unused_inputs.get(drawn) else { return self.unused_input() };
        self.days(clause);
    }

    /// Days of an input clause of the other file that has some to come.
    fn superseded_days(&mut self, before: u16) {
        let last = |clause: &&u16| self.last_days.get(clause).is_some_and(|&last| last >= before);
        let open: Vec<u16> = self.inputs.iter().filter(last).copied().collect();
        let drawn = self.random.below(open.len());
        match open.get(drawn) {
            Some(&clause) => self.days(self.clauses[usize::from(clause)]),
            None => self.unused_days(),
        }
    }

    /// Any days in order.
    fn days(&mut self, clause: u16) {
        let mut days = [0; 2].map(|_| self.random.below(1 << 16) as u16);
        days.sort_unstable();
        self.file.window(clause, days[0], days[1]);
    }
}
