//! Steps whose atoms clash as they are written, and steps whose atoms do not.

mod edges;
mod refusals;
mod terms;

pub use edges::edges;
pub use refusals::refusals;

use super::Example;
pub(crate) use terms::Terms;

/// The arguments of two atoms of one predicate.
type Sides = [Vec<u16>; 2];

/// How the two atoms come together.
#[derive(Clone, Copy)]
struct Step {
    name: &'static str,
    factor: bool,
    exchanged: bool,
}

const RESOLVE: Step = Step { name: "resolve", factor: false, exchanged: false };
const FACTOR: Step = Step { name: "factor", factor: true, exchanged: false };
const BOTH: [Step; 2] = [RESOLVE, FACTOR];
const ALL: [Step; 4] = [
    RESOLVE,
    Step { name: "resolve-exchanged", factor: false, exchanged: true },
    FACTOR,
    Step { name: "factor-exchanged", factor: true, exchanged: true },
];

/// A file of two atoms with these arguments and a step on them; a good record comes after it.
fn stepped(name: &str, step: Step, mut terms: Terms, sides: Sides) -> Example {
    let file = &mut terms.file;
    let p = file.symbol(sides[0].len() as u8);
    let [left, right] = sides.map(|arguments| file.application(p, &arguments));
    let literals = [(true, left), (step.factor, right)];
    let [first, second] = if step.exchanged { [1, 0] } else { [0, 1] };
    if step.factor {
        let clause = file.clause_of_rows(&literals);
        file.factor(clause, 1 + first, 1 + second);
    } else {
        let clauses = literals.map(|literal| file.clause_of_rows(&[literal]));
        file.resolve(clauses[usize::from(first)], 1, clauses[usize::from(second)], 1);
    }
    file.symbol(1);
    Example::new(&format!("{name}-{}", step.name), terms.file.finish())
}
