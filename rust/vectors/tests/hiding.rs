//! Random files with hidden literals: these are met often, before literals that share their variables.

use yestrwyn_second::{check, readout};
use yestrwyn_types::Verdict;
use yestrwyn_vectors::hiding_file;

#[test]
fn files_with_hidden_literals_stand_and_show_others() {
    let (mut standing, mut lines, mut hidden, mut shown_after, mut whole) = (0, 0, 0, 0, 0);
    for seed in 0..1000 {
        let file = hiding_file(seed);
        assert_eq!(file, hiding_file(seed), "seed {seed}");
        standing += usize::from(!matches!(check(0, &file).verdict, Verdict::Refused { .. }));
        let text = String::from_utf8(readout(0, &file)).expect("text");
        for line in text.lines().skip(1) {
            let literals: Vec<&str> = line.split(' ').skip(2).collect();
            let first = literals.iter().position(|literal| literal.ends_with('~'));
            lines += 1;
            hidden += usize::from(first.is_some());
            shown_after +=
                usize::from(first.is_some_and(|at| literals[at..].iter().any(|word| word.contains('v'))));
            whole += literals.iter().filter(|literal| literal.matches(['v', 's']).count() == 64).count();
        }
    }
    let met = [standing, lines, hidden, shown_after, whole];
    assert!(standing > 900 && lines > 9000 && hidden > 8000 && shown_after > 8000 && whole > 1000, "{met:?}");
}
