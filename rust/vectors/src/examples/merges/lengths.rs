//! Merged files as long as one can be, and a record longer.

use super::{of_symbols, Merge};
use crate::examples::edges::many_rows;
use crate::sketch::Sketch;

/// At the edge of 4,096 records, with dropped symbols counted out; one longer; and the largest numbers.
pub fn examples() -> Vec<Merge> {
    let variables = |count: usize| with_variables(Sketch::new(), count);
    let marked = |symbols: usize, count: usize| with_variables(of_symbols(&vec![1; symbols]), count);
    vec![
        Merge::new("4096-records", variables(2048), variables(2048)),
        Merge::new("4097-records", variables(2048), variables(2049)),
        Merge::new("4096-records-of-the-first", variables(4096), Vec::new()),
        Merge::new("4096-records-of-the-second", Vec::new(), variables(4096)),
        Merge::new("4096-records-and-one", variables(4096), variables(1)),
        Merge::new("one-and-4096-records", variables(1), variables(4096)),
        Merge::new("4096-records-twice", variables(4096), variables(4096)),
        Merge::new("4096-records-without-the-symbols", marked(3, 2045), marked(3, 2048)),
        Merge::new("4097-records-without-the-symbols", marked(3, 2046), marked(3, 2048)),
        Merge::new("4096-records-with-more-symbols", marked(3, 2045), marked(100, 1951)),
        Merge::new("4097-records-with-more-symbols", marked(3, 2045), marked(100, 1952)),
        Merge::new("4096-symbols-twice", marked(4096, 0), marked(4096, 0)),
        Merge::new("4096-symbols-and-a-row", marked(4096, 0), marked(4095, 1)),
        Merge::new("largest-row-number", many_rows(4090).finish(), last_rows()),
        Merge::new("largest-clause-number", clauses(4093), last_clauses()),
    ]
}

/// A file with so many rows more, all of one variable.
fn with_variables(mut file: Sketch, count: usize) -> Vec<u8> {
    for _ in 0..count {
        file.fields(2, 0, &[5]);
    }
    file.finish()
}

/// A symbol of one argument, which is dropped, three rows, a clause and one more row. After 4,090 rows the first literal is
/// on row 4,092, which makes 8,185 of it.
fn last_rows() -> Vec<u8> {
    let mut file = of_symbols(&[1]);
    let x = file.variable(0);
    let atoms = [0, 1].map(|row| file.fields(3, 1, &[0, x + row]));
    file.clause_of_rows(&[(true, atoms[1]), (false, atoms[0])]);
    file.fields(3, 1, &[0, atoms[1]]);
    file.finish()
}

/// So many clauses without literals.
fn clauses(count: usize) -> Vec<u8> {
    let mut file = Sketch::new();
    for _ in 0..count {
        file.clause(&[]);
    }
    file.finish()
}

/// Two clauses without literals, and the days of the second.
fn last_clauses() -> Vec<u8> {
    let mut file = Sketch::new();
    file.clause(&[]);
    let last = file.clause(&[]);
    file.window(last, 258, 515);
    file.finish()
}
