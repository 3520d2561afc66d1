//! The instances behind an accepted clause as a problem for SAT solvers, with a legend.

use std::collections::HashMap;
use std::fmt::Write;

use crate::instances::Instances;
use crate::model::Model;
use crate::names::Names;
use crate::terms::{Head, Term, Terms};
use crate::text::print;

/// What the extra constant is printed as, which no name can be.
const EXTRA: &str = "*";

/// The atoms of instances, numbered from 1 as they appear.
struct Atoms {
    numbers: HashMap<Term, usize>,
    order: Vec<Term>,
}

impl Atoms {
    /// The atoms of some instances.
    fn of(instances: &Instances) -> Atoms {
        let mut atoms = Atoms { numbers: HashMap::new(), order: Vec::new() };
        for &(_, atom) in instances.list.iter().flat_map(|instance| &instance.literals) {
            let next = atoms.order.len() + 1;
            if *atoms.numbers.entry(atom).or_insert(next) == next {
                atoms.order.push(atom);
            }
        }
        atoms
    }
}

/// The instances of a clause's uses in the format DIMACS CNF: a clause for each use, in order, and a variable for each atom. A solver that
/// finds no assignment agrees that these uses cannot all be true.
///
/// The legend comes first, in lines that begin with `c`: which atom is which variable, and which use is which clause. All of it is in the
/// comments, so that whatever is in them, the problem is that of the file.
pub fn dimacs(model: &Model<'_>, names: &Names, clause: u16) -> String {
    let instances = Instances::of(model, clause);
    let atoms = Atoms::of(&instances);
    let mut text = head(model, clause, &instances);
    for (number, &atom) in (1..).zip(&atoms.order) {
        line(&mut text, &format!("c atom {number} = {}", printed(&instances.terms, names, atom)));
    }
    for (number, instance) in (1..).zip(&instances.list) {
        let record = model.clause(instance.clause).map_or(0, |clause| clause.record);
        line(&mut text, &format!("c use {number} = input clause {} of record {record}", instance.clause));
    }
    line(&mut text, &format!("p cnf {} {}", atoms.order.len(), instances.list.len()));
    for instance in &instances.list {
        for (positive, atom) in &instance.literals {
            let sign = if *positive { "" } else { "-" };
            let _ = write!(text, "{sign}{} ", atoms.numbers[atom]);
        }
        text.push_str("0\n");
    }
    text
}

/// The first lines of the legend.
fn head(model: &Model<'_>, clause: u16, instances: &Instances) -> String {
    let (uses, used) = (instances.list.len(), model.use_counts(clause).len());
    let mut text = String::new();
    for said in [
        format!("c the instances behind clause {clause}: {uses} uses of {used} input clauses"),
        format!("c {EXTRA} is the extra constant, which stands for every variable without a value"),
        "c in an atom of over 64 symbols .. stands for what is left out: two such atoms may look alike"
            .to_string(),
        "c the k-th clause is use k, and its literals are in the order of the input clause".to_string(),
    ] {
        line(&mut text, &said);
    }
    text
}

/// A variable-free atom in names.
fn printed(terms: &Terms, names: &Names, atom: Term) -> String {
    let head = |term| {
        let (head, arguments) = terms.parts(term);
        let name = match head {
            Head::Symbol(symbol) => names.symbol(symbol),
            Head::Extra => EXTRA.to_string(),
        };
        (name, arguments)
    };
    print(atom, head).text
}

/// Adds a line.
fn line(text: &mut String, said: &str) {
    text.push_str(said);
    text.push('\n');
}
