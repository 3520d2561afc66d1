//! The instances behind accepted clauses as problems for SAT solvers.

mod checked;

use checked::{vectors, Checked};
use yestrwyn_derivations::{dimacs, Names};

/// The clauses of a problem, with its numbers of variables and clauses tested.
fn problem(text: &str) -> Vec<Vec<i32>> {
    let mut lines = text.lines().skip_while(|line| line.starts_with("c "));
    let head: Vec<&str> = lines.next().expect("a problem").split(' ').collect();
    assert_eq!(head[..2], ["p", "cnf"]);
    let clauses: Vec<Vec<i32>> = lines
        .map(|line| {
            let mut numbers: Vec<i32> =
                line.split(' ').map(|number| number.parse().expect("a number")).collect();
            assert_eq!(numbers.pop(), Some(0));
            numbers
        })
        .collect();
    let most = clauses.iter().flatten().map(|literal| literal.unsigned_abs()).max().unwrap_or(0);
    assert_eq!([head[2], head[3]], [most.to_string(), clauses.len().to_string()]);
    clauses
}

/// Is there no assignment that makes all clauses true? By splitting, with what follows at once done first.
fn unsatisfiable(clauses: &[Vec<i32>], values: &mut Vec<Option<bool>>, room: &mut usize) -> Option<bool> {
    *room = room.checked_sub(1)?;
    let mut set = Vec::new();
    let result = loop {
        match next(clauses, values) {
            Next::False => break Some(true),
            Next::Follows(literal) => {
                values[literal.unsigned_abs() as usize] = Some(literal > 0);
                set.push(literal.unsigned_abs() as usize);
            }
            Next::Choose(None) => break Some(false),
            Next::Choose(Some(atom)) => {
                let mut both = Some(true);
                for value in [true, false] {
                    values[atom] = Some(value);
                    both = both.and_then(|so_far| Some(so_far && unsatisfiable(clauses, values, room)?));
                }
                values[atom] = None;
                break both;
            }
        }
    };
    set.into_iter().for_each(|atom| values[atom] = None);
    result
}

enum Next {
    False,
    Follows(i32),
    Choose(Option<usize>),
}

/// A clause that is false, a literal that follows, or an atom to be split on.
fn next(clauses: &[Vec<i32>], values: &[Option<bool>]) -> Next {
    let value = |literal: i32| values[literal.unsigned_abs() as usize].map(|value| value == (literal > 0));
    let (mut choose, mut follows) = (None, None);
    for clause in clauses {
        if clause.iter().any(|&literal| value(literal) == Some(true)) {
            continue;
        }
        let mut open = clause.iter().filter(|&&literal| value(literal).is_none());
        match (open.next(), open.next()) {
            (None, _) => return Next::False,
            (Some(&literal), None) => follows = Some(literal),
            (Some(literal), Some(_)) => choose = Some(literal.unsigned_abs() as usize),
        }
    }
    follows.map_or(Next::Choose(choose), Next::Follows)
}

#[test]
fn no_assignment_makes_the_instances_true() {
    let (names, mut solved) = (Names::none(), 0);
    for checked in vectors() {
        let model = checked.model();
        let Some(accepted) = model.accepted() else { continue };
        let clauses = problem(&dimacs(&model, &names, accepted));
        assert_eq!(clauses.len(), usize::from(model.clause(accepted).expect("a clause").max_index));
        let atoms = clauses.iter().flatten().map(|literal| literal.unsigned_abs()).max().unwrap_or(0);
        let mut values = vec![None; atoms as usize + 1];
        let result = unsatisfiable(&clauses, &mut values, &mut 2000);
        assert_ne!(result, Some(false), "{} has a model", checked.name);
        solved += usize::from(result.is_some());
    }
    assert!(solved > 200, "{solved} solved");
}

#[test]
fn the_legend_of_the_curfew() {
    let checked = Checked::stored("curfew", 0);
    let names = Names::read("s0 departs\ns5 Lakeside\ns6 at2140").expect("names");
    let text = dimacs(&checked.model(), &names, 11);
    for line in [
        "c the instances behind clause 11: 9 uses of 6 input clauses",
        "c atom 1 = departs(at2140)",
        "c use 1 = input clause 0 of record 12",
        "p cnf 8 9",
        "1 2 0",
    ] {
        assert!(text.lines().any(|known| known == line), "{line}\nis not in\n{text}");
    }
}

#[test]
fn a_term_of_any_size_is_one_atom() {
    let deep = vectors().iter().filter(|checked| checked.name.starts_with("deep-"));
    for checked in deep {
        let model = checked.model();
        if let Some(accepted) = model.accepted() {
            let text = dimacs(&model, &Names::none(), accepted);
            assert!(text.len() < 10_000_000, "{} takes {} bytes", checked.name, text.len());
        }
    }
}
