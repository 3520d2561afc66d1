//! A file trimmed slowly, straight from its bytes: each question asked by recursion, each new number by counting.

use std::collections::BTreeSet;

/// Records taken apart: those that make symbols, rows and clauses, and those of days, each by its number in the file.
pub struct Parts<'a> {
    records: Vec<&'a [u8]>,
    symbols: Vec<usize>,
    rows: Vec<usize>,
    clauses: Vec<usize>,
    days: Vec<usize>,
    /// For each row the first that is equal.
    earliest: Vec<usize>,
}

/// The numbers of the symbols, rows and clauses that are kept.
#[derive(Default, Debug)]
pub struct Kept {
    pub symbols: BTreeSet<usize>,
    pub rows: BTreeSet<usize>,
    pub clauses: BTreeSet<usize>,
}

/// Field a is number 0.
fn field(record: &[u8], number: usize) -> usize {
    usize::from(record[2 + 2 * number]) + 256 * usize::from(record[3 + 2 * number])
}

/// How many kept numbers are below one: the number that it gets.
pub fn closed(kept: &BTreeSet<usize>, number: usize) -> usize {
    kept.iter().filter(|&&other| other < number).count()
}

impl Parts<'_> {
    /// Those of a file that stands.
    pub fn of(file: &[u8]) -> Parts<'_> {
        let records: Vec<&[u8]> = file.chunks(16).collect();
        let of_kinds = |kinds: &[u8]| -> Vec<usize> {
            (0..records.len()).filter(|&place| kinds.contains(&records[place][0])).collect()
        };
        let [symbols, rows, clauses, days] = [&[1][..], &[2, 3], &[4, 5, 6, 7], &[8]].map(of_kinds);
        let mut parts = Parts { records, symbols, rows, clauses, days, earliest: Vec::new() };
        // What each row says once its arguments are replaced.
        let mut said: Vec<(u8, Vec<usize>)> = Vec::new();
        for row in 0..parts.rows.len() {
            let record = parts.row(row);
            let arguments = parts.arguments(row).into_iter();
            let all = [field(record, 0)].into_iter().chain(arguments);
            said.push((record[0], all.collect()));
            let first = said.iter().position(|other| *other == said[row]);
            parts.earliest.push(first.expect("itself at least"));
        }
        parts
    }

    fn row(&self, row: usize) -> &[u8] {
        self.records[self.rows[row]]
    }

    /// The arguments of a row, each replaced by the earliest.
    fn arguments(&self, row: usize) -> Vec<usize> {
        let record = self.row(row);
        let count = if record[0] == 3 { usize::from(record[1]) } else { 0 };
        (1..=count).map(|number| self.earliest[field(record, number)]).collect()
    }

    /// What a clause uses.
    pub fn used_by(&self, clause: usize) -> Kept {
        let mut kept = Kept::default();
        self.keep_clause(clause, &mut kept);
        kept
    }

    fn keep_clause(&self, clause: usize, kept: &mut Kept) {
        if !kept.clauses.insert(clause) {
            return;
        }
        let record = self.records[self.clauses[clause]];
        match record[0] {
            4 => {
                for number in 0..usize::from(record[1]) {
                    self.keep_row(self.earliest[field(record, number) / 2], kept);
                }
            }
            6 => self.keep_clause(field(record, 0), kept),
            _ => [0, 2].iter().for_each(|&parent| self.keep_clause(field(record, parent), kept)),
        }
    }

    fn keep_row(&self, row: usize, kept: &mut Kept) {
        if !kept.rows.insert(row) {
            return;
        }
        if self.row(row)[0] == 3 {
            kept.symbols.insert(field(self.row(row), 0));
        }
        self.arguments(row).into_iter().for_each(|argument| self.keep_row(argument, kept));
    }

    /// Is a record kept?
    fn is_kept(&self, place: usize, kept: &Kept) -> bool {
        let record = self.records[place];
        let number = |all: &[usize]| all.iter().position(|&other| other == place).expect("its number");
        match record[0] {
            1 => kept.symbols.contains(&number(&self.symbols)),
            2 | 3 => kept.rows.contains(&number(&self.rows)),
            8 => {
                let of_the_same = |&&other: &&usize| field(self.records[other], 0) == field(record, 0);
                let last = self.days.iter().filter(of_the_same).max();
                kept.clauses.contains(&field(record, 0)) && last == Some(&place)
            }
            _ => kept.clauses.contains(&number(&self.clauses)),
        }
    }

    /// A kept record with every number closed up.
    fn closed_up(&self, place: usize, kept: &Kept) -> Vec<u8> {
        let record = self.records[place];
        let count = usize::from(record[1]);
        let row = |row: usize| closed(&kept.rows, self.earliest[row]);
        let closed_field = |number: usize| {
            let old = field(record, number);
            match (record[0], number) {
                (3, 0) => closed(&kept.symbols, old),
                (3, _) if number <= count => row(old),
                (4, _) if number < count => 2 * row(old / 2) + old % 2,
                (5 | 7, 0 | 2) | (6 | 8, 0) => closed(&kept.clauses, old),
                _ => old,
            }
        };
        let fields = (0..7).flat_map(|number| [closed_field(number) % 256, closed_field(number) / 256]);
        record[..2].iter().copied().chain(fields.map(|byte| byte as u8)).collect()
    }

    /// The records that are kept, with numbers closed up.
    pub fn trimmed(&self, kept: &Kept) -> Vec<u8> {
        let places = (0..self.records.len()).filter(|&place| self.is_kept(place, kept));
        places.flat_map(|place| self.closed_up(place, kept)).collect()
    }
}

/// A line of a readout with every symbol's number closed up. No other word begins with `s`.
pub fn renumbered_line(line: &str, symbols: &BTreeSet<usize>) -> String {
    let mut parts = line.split('s');
    let mut text = parts.next().unwrap_or("").to_string();
    for part in parts {
        let end = part.find(|c: char| !c.is_ascii_digit()).unwrap_or(part.len());
        let (number, rest) = part.split_at(end);
        let number = number.parse().expect("a symbol's number");
        text += &format!("s{}{rest}", closed(symbols, number));
    }
    text
}
