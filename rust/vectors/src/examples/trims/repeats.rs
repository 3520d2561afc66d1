//! Repeated rows: the earliest is kept, also where only a later one is named.

use yestrwyn_types::record::kind;

use super::on;
use crate::examples::Example;
use crate::sketch::Sketch;

/// All of them, on day 7.
pub fn examples() -> Vec<Example> {
    vec![
        on(7, "only-the-later-row-is-named", later_named()),
        on(7, "the-earliest-row-names-repeats", earliest_names_repeats()),
        on(7, "repeats-at-every-depth", repeats_at_every_depth()),
        on(7, "the-earliest-row-is-of-an-unused-clause", earliest_unused()),
    ]
}

/// p(x) and p(x) again, of which both literals name the second.
fn later_named() -> Sketch {
    let mut file = Sketch::new();
    let p = file.symbol(1);
    let x = file.fields(kind::VARIABLE, 0, &[0]);
    file.fields(kind::APPLICATION, 1, &[p, x]);
    let x_again = file.fields(kind::VARIABLE, 0, &[0]);
    let atom = file.fields(kind::APPLICATION, 1, &[p, x_again]);
    let yes = file.clause_of_rows(&[(true, atom)]);
    let no = file.clause_of_rows(&[(false, atom)]);
    file.resolve(yes, 1, no, 1);
    file
}

/// x, x again, and p of the second: the record of p is kept, and names the first.
fn earliest_names_repeats() -> Sketch {
    let mut file = Sketch::new();
    let [p, unused] = [2, 0].map(|arity| file.symbol(arity));
    file.fields(kind::APPLICATION, 0, &[unused]);
    file.fields(kind::VARIABLE, 0, &[3]);
    let [second, third] = [(); 2].map(|()| file.fields(kind::VARIABLE, 0, &[3]));
    let atom = file.fields(kind::APPLICATION, 2, &[p, third, second]);
    let yes = file.clause_of_rows(&[(true, atom)]);
    let no = file.clause_of_rows(&[(false, atom)]);
    file.resolve(yes, 1, no, 1);
    file
}

/// The rows of q(f(f(a))) written three times over, each named by the next, and the clauses on the last.
fn repeats_at_every_depth() -> Sketch {
    let mut file = Sketch::new();
    let [q, f, a] = [1, 1, 0].map(|arity| file.symbol(arity));
    let mut atoms = Vec::new();
    for _ in 0..3 {
        let inner = file.fields(kind::APPLICATION, 0, &[a]);
        let once = file.fields(kind::APPLICATION, 1, &[f, inner]);
        let twice = file.fields(kind::APPLICATION, 1, &[f, once]);
        atoms.push(file.fields(kind::APPLICATION, 1, &[q, twice]));
    }
    let yes = file.clause_of_rows(&[(true, atoms[2]), (true, atoms[1])]);
    let no = file.clause_of_rows(&[(false, atoms[2])]);
    file.resolve_several(no, 1, yes, &[1, 2]);
    file
}

/// The earliest row stands before an unused clause and is named by it alone; the clauses that stay name its repeat.
fn earliest_unused() -> Sketch {
    let mut file = Sketch::new();
    let [p, a] = [1, 0].map(|arity| file.symbol(arity));
    let constant = file.fields(kind::APPLICATION, 0, &[a]);
    let first = file.fields(kind::APPLICATION, 1, &[p, constant]);
    file.clause_of_rows(&[(true, first), (true, first)]);
    let other = file.fields(kind::VARIABLE, 0, &[9]);
    file.fields(kind::APPLICATION, 1, &[p, other]);
    let constant = file.fields(kind::APPLICATION, 0, &[a]);
    let again = file.fields(kind::APPLICATION, 1, &[p, constant]);
    let yes = file.clause_of_rows(&[(true, again)]);
    let no = file.clause_of_rows(&[(false, again)]);
    file.resolve(yes, 1, no, 1);
    file
}
