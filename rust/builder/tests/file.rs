//! The file builder: equal terms are one row, what is tested of a record, and numbers that are the
//! check's.

use yestrwyn_builder::{neg, pos, BuildError, FileBuilder, Row};
use yestrwyn_second::check;

#[test]
fn equal_terms_are_one_row() {
    let mut file = FileBuilder::new();
    let [f, a] = [2, 0].map(|arity| file.symbol(arity).unwrap());
    let make = |file: &mut FileBuilder| {
        let (a, x) = (file.constant(a).unwrap(), file.variable(3).unwrap());
        let inner = file.apply(f, &[a, x]).unwrap();
        file.apply(f, &[inner, inner]).unwrap()
    };
    let (first, second) = (make(&mut file), make(&mut file));
    assert_eq!(first, second);
    // Two symbols, then a, v3, f(a,v3), f(f(a,v3),f(a,v3)).
    assert_eq!((first.number(), file.bytes().len()), (3, 6 * 16));
    assert_eq!(check(0, file.bytes()).numbers(), [0, 0, 0, 2, 4, 0, 0]);
}

#[test]
fn numbers_are_those_of_the_check() -> Result<(), BuildError> {
    let mut file = FileBuilder::new();
    let p = file.symbol(1)?;
    let (x, y) = (file.variable(0)?, file.variable(1)?);
    let (px, py) = (file.apply(p, &[x])?, file.apply(p, &[y])?);
    let left = file.clause(&[pos(px), pos(py)])?;
    let q = file.symbol(0)?;
    let constant = file.constant(q)?;
    let pq = file.apply(p, &[constant])?;
    let right = file.clause(&[neg(pq)])?;
    let factored = file.factor(left.literal(1), left.literal(2))?;
    let empty = file.resolve(factored.literal(1), right.literal(1))?;
    assert_eq!([left, right, factored, empty].map(|clause| clause.number()), [0, 1, 2, 3]);
    assert_eq!(([p, q].map(|symbol| symbol.number()), p.arity()), ([0, 1], 1));
    assert_eq!(check(0, &file.finish()).numbers(), [1, 3, 0, 2, 6, 4, 2]);
    Ok(())
}

#[test]
fn several_right_literals_are_written_as_they_are_given() -> Result<(), BuildError> {
    let mut file = FileBuilder::new();
    let p = file.symbol(1)?;
    let atoms: Vec<Row> = (0..4).map(|number| file.variable(number)).collect::<Result<_, _>>()?;
    let atoms: Vec<Row> = atoms.iter().map(|&x| file.apply(p, &[x])).collect::<Result<_, _>>()?;
    let left = file.clause(&[pos(atoms[0]), neg(atoms[1])])?;
    let right = file.clause(&atoms.iter().map(|&atom| neg(atom)).collect::<Vec<_>>())?;
    let rights = [1, 2, 4].map(|number| right.literal(number));
    let derived = file.resolve_several(left.literal(1), &rights)?;
    let last = &file.bytes()[file.bytes().len() - 16..];
    assert_eq!(last, [7, 3, 0, 0, 1, 0, 1, 0, 1, 0, 2, 0, 4, 0, 0, 0]);
    // Two literals are left: one of the left clause, one of the right.
    let missing = Err(BuildError::NoLiteral { number: 3, literals: 2 });
    assert_eq!(file.factor(derived.literal(1), derived.literal(3)), missing);
    assert_eq!(check(0, file.bytes()).numbers()[..3], [0, 0, 0]);
    // A list that does not rise is written all the same: the check refuses it.
    file.resolve_several(left.literal(1), &[rights[1], rights[0]])?;
    assert_eq!(check(0, file.bytes()).numbers()[..2], [2, 14]);
    Ok(())
}

#[test]
fn what_cannot_be_written_is_an_error_and_leaves_the_file() -> Result<(), BuildError> {
    let mut file = FileBuilder::new();
    let (p, q) = (file.symbol(1)?, file.symbol(0)?);
    let (x, q) = (file.variable(0)?, file.constant(q)?);
    let (px, pq) = (file.apply(p, &[x])?, file.apply(p, &[q])?);
    let clause = file.clause(&[pos(px), pos(pq)])?;
    let other = file.clause(&[neg(px)])?;
    let written = file.bytes().to_vec();
    assert_eq!(file.symbol(7), Err(BuildError::Arity(7)));
    assert_eq!(file.variable(64), Err(BuildError::Variable(64)));
    assert_eq!(file.apply(p, &[]), Err(BuildError::Arguments { arity: 1, given: 0 }));
    assert_eq!(file.apply(p, &[x, q]), Err(BuildError::Arguments { arity: 1, given: 2 }));
    assert_eq!(file.constant(p), Err(BuildError::Arguments { arity: 1, given: 0 }));
    assert_eq!(file.clause(&[pos(px); 8]), Err(BuildError::Literals(8)));
    assert_eq!(file.clause(&[pos(px); 300]), Err(BuildError::Literals(300)));
    assert_eq!(file.clause(&[pos(x)]), Err(BuildError::VariableLiteral));
    let missing = |number| Err(BuildError::NoLiteral { number, literals: 2 });
    assert_eq!(file.resolve(clause.literal(0), other.literal(1)), missing(0));
    assert_eq!(file.resolve(other.literal(1), clause.literal(3)), missing(3));
    assert_eq!(file.factor(clause.literal(1), clause.literal(9)), missing(9));
    assert_eq!(file.factor(clause.literal(1), other.literal(1)), Err(BuildError::TwoClauses));
    let several = |count: usize| vec![other.literal(1); count];
    for count in [0, 5, 300] {
        let refused = file.resolve_several(clause.literal(1), &several(count));
        assert_eq!(refused, Err(BuildError::RightLiterals(count)));
    }
    let two = [other.literal(1), clause.literal(1)];
    assert_eq!(file.resolve_several(clause.literal(1), &two), Err(BuildError::TwoClauses));
    let rights = [1, 3].map(|number| clause.literal(number));
    assert_eq!(file.resolve_several(other.literal(1), &rights), missing(3));
    assert_eq!(file.resolve_several(clause.literal(0), &several(1)), missing(0));
    assert_eq!(file.bytes(), written);
    Ok(())
}

#[test]
fn days_are_given_to_input_clauses() -> Result<(), BuildError> {
    let mut file = FileBuilder::new();
    let p = file.symbol(0)?;
    let p = file.constant(p)?;
    let (one, other) = (file.clause(&[pos(p)])?, file.clause(&[neg(p)])?);
    let empty = file.resolve(one.literal(1), other.literal(1))?;
    file.in_force(one, 10..=20)?;
    let last = &file.bytes()[file.bytes().len() - 16..];
    assert_eq!(last, [8, 0, 0, 0, 10, 0, 20, 0, 0, 0, 0, 0, 0, 0, 0, 0]);
    let written = file.bytes().to_vec();
    assert_eq!(file.in_force(empty, 10..=20), Err(BuildError::Derived(2)));
    // A range that is empty has its ends in the wrong order.
    let (first, last) = (21, 20);
    assert_eq!(file.in_force(one, first..=last), Err(BuildError::Days { first, last }));
    assert_eq!(FileBuilder::new().in_force(one, 10..=20), Err(BuildError::Foreign));
    assert_eq!(file.bytes(), written);
    file.in_force(other, 20..=u16::MAX)?;
    let verdicts = [9, 10, 19, 20, 21].map(|day| check(day, file.bytes()).verdict.to_string());
    assert_eq!(verdicts, ["open", "open", "open", "accepted 2", "open"]);
    // The clause that comes next has the number it would have had without them.
    assert_eq!(file.clause(&[])?.number(), 3);
    Ok(())
}

#[test]
fn handles_of_another_file_are_errors() -> Result<(), BuildError> {
    let (mut one, mut other) = (FileBuilder::new(), FileBuilder::new());
    let (p, q) = (one.symbol(1)?, one.symbol(0)?);
    let row = one.constant(q)?;
    let atom = one.apply(p, &[row])?;
    let clause = one.clause(&[pos(atom)])?;
    assert_eq!(other.constant(q), Err(BuildError::Foreign));
    let own = other.symbol(1)?;
    assert_eq!(other.apply(own, &[row]), Err(BuildError::Foreign));
    assert_eq!(other.clause(&[pos(atom)]), Err(BuildError::Foreign));
    assert_eq!(other.resolve(clause.literal(1), clause.literal(1)), Err(BuildError::Foreign));
    Ok(())
}

#[test]
fn no_file_gets_longer_than_4096_records() -> Result<(), BuildError> {
    let mut file = FileBuilder::new();
    for _ in 0..4096 {
        file.symbol(0)?;
    }
    assert_eq!(file.symbol(0), Err(BuildError::Full));
    assert_eq!(file.variable(0), Err(BuildError::Full));
    assert_eq!(check(0, file.bytes()).numbers(), [0, 0, 0, 4096, 0, 0, 0]);
    Ok(())
}

#[test]
fn deep_terms_and_many_literals_need_no_deep_recursion() -> Result<(), BuildError> {
    let mut file = FileBuilder::new();
    let [p, f] = [file.symbol(1)?, file.symbol(1)?];
    let mut deep: Row = file.variable(0)?;
    for _ in 0..4000 {
        deep = file.apply(f, &[deep])?;
    }
    let atom = file.apply(p, &[deep])?;
    let mut clause = file.clause(&[neg(atom), pos(atom), pos(atom)])?;
    for _ in 0..20 {
        // A clause that is too large is written all the same: the check refuses it.
        clause = file.resolve(clause.literal(2), clause.literal(1))?;
    }
    assert_eq!(check(0, &file.finish()).numbers()[..3], [2, 9, 4011]);
    Ok(())
}

#[test]
fn errors_say_what_is_wrong() {
    let texts = [
        (BuildError::Arguments { arity: 2, given: 3 }, "3 arguments to a symbol of arity 2"),
        (BuildError::Variable(64), "variable 64, over 63"),
        (BuildError::Derived(7), "days for clause 7, which a step has made: only an input clause has days"),
        (BuildError::Days { first: 21, last: 20 }, "day 21 as the first, after the last, 20"),
        (BuildError::RightLiterals(5), "5 right literals, not 1 to 4"),
        (BuildError::Refused(yestrwyn_builder::Reason::Clash), "refused with 10: two different symbols meet"),
    ];
    for (error, text) in texts {
        assert_eq!(error.to_string(), text);
    }
}
