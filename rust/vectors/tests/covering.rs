//! Files made for comparing clauses: all answers are met often, and what makes them hard to find.

use yestrwyn_second::{check, covers};
use yestrwyn_types::{Answer, Outcome, Reason, Verdict};
use yestrwyn_vectors::covering_file;

/// What the files give for every two of their clauses.
#[derive(Default, Debug)]
struct Met {
    yes: usize,
    no: usize,
    /// Refused because the file is, and because a clause is derived.
    refused: [usize; 2],
    /// A yes in which literals do not keep their order, or become one.
    crossed: usize,
    /// Yes and no in files of many rows.
    deep: [usize; 2],
}

/// Adds the answer for two clauses of a file.
fn count(met: &mut Met, file: &[u8], answer: &Answer, c: u16, d: u16) {
    let covering = covers(file, c, d);
    let chosen = covering.literals.iter().take_while(|&&number| number > 0);
    let deep = usize::from(answer.rows > 500);
    match covering.outcome {
        Outcome::Yes => {
            met.yes += 1;
            met.crossed += usize::from(!chosen.is_sorted_by(|one, next| one < next));
            met.deep[0] += deep;
        }
        Outcome::No => {
            met.no += 1;
            met.deep[1] += deep;
        }
        Outcome::Refused { .. } => {
            met.refused[usize::from(!matches!(answer.verdict, Verdict::Refused { .. }))] += 1;
        }
    }
}

#[test]
fn all_answers_are_met() {
    let mut met = Met::default();
    for seed in 0..500 {
        let file = covering_file(seed);
        assert_eq!(file, covering_file(seed), "seed {seed}");
        let answer = check(0, &file);
        if let Verdict::Refused { reason, record } = answer.verdict {
            // Only a record that is meant to be refused is, and it is the last.
            assert_eq!((reason, usize::from(record) + 1), (Reason::Kind, file.len() / 16), "seed {seed}");
        }
        for (c, d) in (0..answer.clauses).flat_map(|c| (0..answer.clauses).map(move |d| (c, d))) {
            if c != d {
                count(&mut met, &file, &answer, c, d);
            }
        }
    }
    assert!(met.yes > 2000 && met.no > 5000 && met.crossed > 1000, "{met:?}");
    assert!(met.refused.iter().all(|&refused| refused > 200), "{met:?}");
    assert!(met.deep[0] > 80 && met.deep[1] > 300, "{met:?}");
}
