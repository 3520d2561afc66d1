//! Files of the new form that are refused with the reason in their name, and some beside them that stand.

use yestrwyn_types::record::{kind, Record};
use yestrwyn_types::{Dated, Form};

use super::Formed;
use crate::sketch::{app, neg, pos, var, Sketch};
use crate::widening::widened;

/// All of them.
pub fn examples() -> Vec<Formed> {
    let mut all = fillers();
    all.extend(kinds());
    all.extend(orders());
    all.extend(crossed());
    all
}

/// Symbols p of one argument and a; rows x, p(x), a, p(a), two clauses. What is tried comes after it, as record 8.
fn start() -> Sketch {
    let mut file = Sketch::new();
    let [p, a] = [1, 0].map(|arity| file.symbol(arity));
    file.clause(&[pos(app(p, [var(0)])), pos(app(p, [var(0)]))]);
    file.clause(&[neg(app(p, [app(a, [])]))]);
    file
}

/// The rows of the start, by what they are.
const X: u16 = 0;
const P_OF_X: u16 = 1;
/// Past the last row.
const MISSING: u16 = 4;

/// A record of the new form after the start.
fn after(name: &str, record: Record, days: [u16; 2]) -> Formed {
    let mut file = widened(start().bytes());
    file.extend_from_slice(&Dated { record, days }.to_bytes());
    Formed::new(Form::New, name, file)
}

/// A record of each kind that stands after the start.
fn standing() -> [(&'static str, Record); 7] {
    [
        ("symbol", Record::new(kind::SYMBOL, 2, &[])),
        ("variable", Record::new(kind::VARIABLE, 0, &[5])),
        ("application", Record::new(kind::APPLICATION, 1, &[0, P_OF_X])),
        ("input", Record::new(kind::INPUT, 1, &[2 * P_OF_X])),
        ("resolve", Record::new(kind::RESOLVE, 0, &[0, 1, 1, 1])),
        ("factor", Record::new(kind::FACTOR, 0, &[0, 1, 2])),
        ("several", Record::new(kind::RESOLVE_SEVERAL, 2, &[1, 1, 0, 1, 2])),
    ]
}

/// Each kind with a filler that is not zero, in each of the four bytes; an input clause has its days there.
fn fillers() -> Vec<Formed> {
    let bytes = [("16", [1, 0]), ("17", [0x100, 0]), ("18", [0, 1]), ("19", [0, 0x100])];
    let wrong = [("always", Dated::ALWAYS), ("crossed", [20, 10])];
    let mut all = Vec::new();
    for (name, record) in standing() {
        let is_input = record.kind == kind::INPUT;
        let right = if is_input { Dated::ALWAYS } else { [0; 2] };
        all.push(after(&format!("stands-{name}"), record, right));
        for (byte, days) in bytes {
            let word = if !is_input { "4" } else { in_order(days) };
            all.push(after(&format!("{word}-{name}-byte-{byte}"), record, days));
        }
        for (what, days) in wrong.into_iter().filter(|_| !is_input) {
            all.push(after(&format!("4-{name}-{what}"), record, days));
        }
    }
    all
}

/// What an input clause with these days gives: the beginning of its name.
fn in_order([first, last]: [u16; 2]) -> &'static str {
    if first > last {
        "16"
    } else {
        "stands"
    }
}

/// Kinds that there are not, kind 8 among them, with zeros beside them and without.
fn kinds() -> Vec<Formed> {
    let mut all = Vec::new();
    for kind in [0, 8, 9, 20, 255] {
        for (what, days) in
            [("zeros", [0; 2]), ("days", [10, 20]), ("crossed", [20, 10]), ("always", Dated::ALWAYS)]
        {
            let record = Record::new(kind, 0, &[0, 10, 20]);
            all.push(after(&format!("3-kind-{kind}-{what}"), record, days));
        }
    }
    all
}

/// Where several apply: 4 with the filler before 5 and later ones; of an input clause 4, 5, 16 and 7 in this order.
fn orders() -> Vec<Formed> {
    let input = |count: u8, literals: &[u16]| Record::new(kind::INPUT, count, literals);
    let missing = 2 * MISSING;
    vec![
        after("4-before-5-application", Record::new(kind::APPLICATION, 1, &[7, P_OF_X]), [0, 1]),
        after("4-before-5-resolve", Record::new(kind::RESOLVE, 0, &[9, 1, 1, 1]), [0, 1]),
        after("4-before-8-resolve", Record::new(kind::RESOLVE, 0, &[0, 1, 0, 1]), [0, 1]),
        after("4-before-8-factor", Record::new(kind::FACTOR, 0, &[0, 1, 1]), [1, 1]),
        after("4-before-14-several", Record::new(kind::RESOLVE_SEVERAL, 2, &[1, 1, 0, 2, 1]), [0, 1]),
        after("4-before-16-count", input(8, &[2; 7]), [20, 10]),
        after("4-before-16-unused-field", input(1, &[2, 2]), [20, 10]),
        after("4-before-5-input", input(1, &[missing, 2]), [10, 20]),
        after("5-before-16", input(1, &[missing]), [20, 10]),
        after("5-before-16-second-literal", input(2, &[2 * P_OF_X, missing]), [20, 10]),
        after("5-before-16-and-7", input(2, &[2 * X, missing]), [20, 10]),
        after("5-before-7", input(2, &[2 * X, missing]), [10, 20]),
        after("16-before-7", input(1, &[2 * X]), [20, 10]),
        after("16-before-7-second-literal", input(2, &[2 * P_OF_X, 2 * X]), [20, 10]),
        after("7-days-in-order", input(1, &[2 * X]), [10, 20]),
        after("7-always", input(1, &[2 * X]), Dated::ALWAYS),
        after("7-third-literal", input(3, &[2 * P_OF_X, 2 * P_OF_X + 1, 2 * X + 1]), [0, 0]),
    ]
}

/// Days that are crossed by one, by their high bytes, or not at all.
fn crossed() -> Vec<Formed> {
    let input = Record::new(kind::INPUT, 1, &[2 * P_OF_X]);
    let of = |days: [u16; 2]| after(&format!("{}-days-{}-{}", in_order(days), days[0], days[1]), input, days);
    let days = [
        [20, 10],
        [1, 0],
        [256, 255],
        [65_535, 65_534],
        [65_535, 0],
        [512, 257],
        [10, 10],
        [255, 256],
        [257, 512],
        [0, 65_535],
        [65_535, 65_535],
        [0, 0],
    ];
    days.into_iter().map(of).collect()
}
