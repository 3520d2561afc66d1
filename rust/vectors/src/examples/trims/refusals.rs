//! Files that are not trimmed, with the reason that their names begin with: the check's own, and 23 where a file stands and is not
//! accepted on the day.

use yestrwyn_types::record::{kind, Record};

use super::on;
use crate::examples::refutations::{factored, opposites, refuted};
use crate::examples::Example;
use crate::sketch::{app, pos, var, Sketch};

/// All of them.
pub fn examples() -> Vec<Example> {
    let mut all = not_accepted();
    all.extend(own());
    all
}

/// Files that stand: without an empty clause, or with none that is in force.
fn not_accepted() -> Vec<Example> {
    let mut dated = refuted(1);
    dated.window(0, 10, 20);
    let mut two = refuted(2);
    two.window(1, 10, 20);
    two.window(2, 30, 40);
    let mut superseded = refuted(1);
    superseded.window(1, 10, 20);
    superseded.window(1, 16, 20);
    vec![
        on(15, "23-no-record", Sketch::new()),
        on(15, "23-no-step", opposites(2)),
        on(9, "23-the-day-before", dated.clone()),
        on(21, "23-the-day-after", dated),
        on(25, "23-between-two-empty-clauses", two),
        on(15, "23-superseded-days", superseded),
    ]
}

/// A file that would be accepted, but for a record after the empty clause, or before it.
fn own() -> Vec<Example> {
    let after = |name: &str, record: Record| {
        let mut file = factored();
        file.raw(record);
        on(15, name, file)
    };
    let mut length = factored().finish();
    length.push(0);
    let mut before = Sketch::new();
    let p = before.symbol(1);
    before.clause(&[pos(app(p, [var(0)]))]);
    before.fields(9, 0, &[]);
    // Clauses 0 and 1 are +p(x) +p(y) and -p(a), 2 and 3 the factor and the empty clause; row 0 is the variable x.
    vec![
        Example { day: 15, ..Example::new("1-a-byte-too-many", length) },
        on(15, "3-before-any-step", before),
        after("3-kind-9", Record::new(9, 0, &[])),
        after("4-unused-field", Record::new(kind::SYMBOL, 0, &[1])),
        after("5-no-such-row", Record::new(kind::INPUT, 1, &[200])),
        after("5-days-of-a-derived-clause", Record::new(kind::WINDOW, 0, &[2, 10, 20])),
        after("7-a-variable", Record::new(kind::INPUT, 1, &[0])),
        after("8-equal-signs", Record::new(kind::RESOLVE, 0, &[0, 1, 2, 1])),
        after("14-right-literals-fall", Record::new(kind::RESOLVE_SEVERAL, 2, &[1, 1, 0, 2, 1])),
        after("16-crossed-days", Record::new(kind::WINDOW, 0, &[0, 20, 10])),
    ]
}
