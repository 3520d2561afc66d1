//! The input clauses of a checked file with their days, as a broker gets them to compare.

use yestrwyn_second::check_into;
use yestrwyn_types::record::{self, kind};
use yestrwyn_types::{input_clauses, Answer, Cells, InputClause, Verdict};
use yestrwyn_vectors::dated_file;
use yestrwyn_vectors::sketch::{app, neg, pos, Sketch};

/// A file's answer and tables on a day, and its input clauses.
fn checked(day: u16, file: &[u8]) -> (Answer, Cells, Vec<InputClause>) {
    let mut cells = Cells::new();
    let answer = check_into(day, file, &mut cells.lend());
    let clauses = input_clauses(file, &answer, &cells).collect();
    (answer, cells, clauses)
}

#[test]
fn clauses_by_hand() {
    let mut file = Sketch::new();
    let p = file.symbol(0);
    let one = file.clause(&[pos(app(p, []))]);
    let other = file.clause(&[neg(app(p, [])), neg(app(p, []))]);
    file.window(other, 10, 20);
    let factor = file.factor(other, 1, 2);
    file.resolve(one, 1, factor, 1);
    file.window(other, 30, 40);
    let last = file.clause(&[]);
    let standing = file.bytes().to_vec();
    // Symbol, row, two clauses, a window, two steps, a window, a clause.
    let clause = |clause, record, literals: &[u16], days| InputClause {
        clause,
        record,
        literals: literals.to_vec(),
        days,
    };
    let right =
        [clause(one, 2, &[1], None), clause(other, 3, &[0, 0], Some(30..=40)), clause(last, 8, &[], None)];
    assert_eq!(checked(0, &standing).2, right);
    assert_eq!([29, 30, 40, 41].map(|day| right[1].in_force(day)), [false, true, true, false]);
    assert!(right[0].in_force(0) && right[0].in_force(65_535));
    // Of a refused file, what stands before the record.
    file.window(other, 60, 50);
    file.window(one, 1, 2);
    assert_eq!(checked(0, &file.finish()).2, right);
    let early = [&standing[..7 * 16], &[0; 16], &standing[7 * 16..]].concat();
    assert_eq!(checked(0, &early).2, [right[0].clone(), clause(other, 3, &[0, 0], Some(10..=20))]);
    // Nothing is read of a file that is too short or too long.
    for unfit in [&standing[..15], &[0; 65_552]] {
        assert_eq!(checked(0, unfit).2, []);
    }
}

/// The lowest empty clause whose derivation uses only clauses in force, by the days listed and the steps' parents.
fn first_empty(day: u16, file: &[u8], answer: &Answer, cells: &Cells, inputs: &[InputClause]) -> Verdict {
    let mut in_force: Vec<bool> = Vec::new();
    for clause in 0..answer.clauses {
        let cell = usize::from(clause) * 5;
        let record = record::read(file, cells.clauses[cell]).expect("its record");
        let of = |parent: u16| in_force[usize::from(parent)];
        let holds = match record.kind {
            kind::RESOLVE | kind::RESOLVE_SEVERAL => of(record.fields[0]) && of(record.fields[2]),
            kind::FACTOR => of(record.fields[0]),
            _ => inputs.iter().any(|input| input.clause == clause && input.in_force(day)),
        };
        if holds && cells.clauses[cell + 1] == 0 {
            return Verdict::Accepted(clause);
        }
        in_force.push(holds);
    }
    Verdict::Open
}

#[test]
fn the_verdict_follows_from_the_days_listed() {
    let (mut accepted, mut dated) = (0, 0);
    for seed in 0..1500 {
        let (day, file) = dated_file(seed);
        let (answer, cells, inputs) = checked(day, &file);
        if matches!(answer.verdict, Verdict::Refused { .. }) {
            continue;
        }
        assert_eq!(first_empty(day, &file, &answer, &cells, &inputs), answer.verdict, "dated {seed}");
        accepted += usize::from(answer.verdict.is_accepted());
        dated += inputs.iter().filter(|input| input.days.is_some()).count();
    }
    assert!(accepted > 200 && dated > 1000, "{accepted} files are accepted, {dated} clauses have days");
}
