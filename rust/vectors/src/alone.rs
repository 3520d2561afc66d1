//! What unification alone gives for a step, whatever its outlines are: for generators and tests.

use yestrwyn_second::checker::Checker;
use yestrwyn_second::clause::{literal, Loader};
use yestrwyn_second::environment::Environment;
use yestrwyn_second::expression::Expression;
use yestrwyn_second::unify::Unifier;
use yestrwyn_types::record::{kind, Record};
use yestrwyn_types::Reason;

/// What unification gives for a step that would be read next; none if the record is no step, or names a literal
/// that does not exist. The step's other tests are not made.
pub fn unification_alone(checker: &Checker, record: &Record) -> Option<Result<(), Reason>> {
    let (clauses, fields) = (checker.clauses(), record.fields);
    let [a, b, c, ..] = fields;
    let (other, numbers, resolve) = match record.kind {
        kind::RESOLVE => (c, fields.get(3..4)?, true),
        kind::RESOLVE_SEVERAL => (c, fields.get(3..3 + usize::from(record.count))?, true),
        kind::FACTOR => (a, fields.get(2..3)?, false),
        _ => return None,
    };
    let [first, second] = [a, other].map(|clause| clauses.get(usize::from(clause)));
    let raise = if resolve { first?.max_index } else { 0 };
    let raised = |number: &u16| {
        let Expression { row, index } = literal(clauses, other, *number)?.atom;
        Some(Expression { row, index: index.checked_add(raise)? })
    };
    let left = literal(clauses, a, b)?.atom;
    let rights = numbers.iter().map(raised).collect::<Option<Vec<_>>>()?;
    let (mut environment, mut loader) = (Environment::new(), Loader::default());
    environment.clear(second?.max_index.checked_add(raise)?);
    let mut bindings = checker.bindings().to_vec();
    // The parent of a factor is loaded twice, which alters nothing.
    loader.load(clauses, &bindings, &mut environment, a, 0);
    loader.load(clauses, &bindings, &mut environment, other, raise);
    let rights = rights.into_iter();
    Some(Unifier::default().unify(checker.nodes(), &mut environment, &mut bindings, left, rights))
}
