//! Which clause covers which: the proved function and the second implementation give equal numbers and equal cells.
//!
//! Every test runs in a thread with a larger stack than a test's own 2 MiB: see `yestrwyn::with_stack`.

use std::fs;
use std::path::Path;

use yestrwyn::exported::covers_numbers;
use yestrwyn::{covers, covers_here, covers_into, Cells, Covering, Tables, COVERING_CELLS, LENGTHS};
use yestrwyn_comparison::compare::{day_and_file_of, lengths_of, Lengths};
use yestrwyn_comparison::covers::{for_covering, Clauses, Coverings};
use yestrwyn_comparison::questions::questions;
use yestrwyn_vectors::examples::cases;
use yestrwyn_vectors::random::SplitMix64;
use yestrwyn_vectors::stored::groups;
use yestrwyn_vectors::{covering_file, damage, random_file, repeating_file, several_file};

/// Runs a test with stack enough for every file.
fn with_stack(test: impl FnOnce() + Send) {
    yestrwyn::with_stack(test).expect("a thread");
}

/// Tables and an answer of ten cells that are longer than they need to be by some cells.
fn longer(by: usize) -> Lengths {
    for_covering(Lengths::longer(by))
}

/// Both implementations, and how many noes, yeses and refusals they have given.
#[derive(Default)]
struct Both {
    coverings: Coverings,
    met: [usize; 3],
}

impl Both {
    /// Compares two clauses of a file.
    fn same(&mut self, name: &str, file: &[u8], clauses: [u16; 2], lengths: Lengths) {
        match self.coverings.compare(file, clauses, lengths, 0xabcd) {
            Ok(Some(kind)) => self.met[usize::from(kind)] += 1,
            Ok(None) => {}
            Err(difference) => panic!("{difference}; clauses {clauses:?} of {name} with {lengths:?}"),
        }
    }

    /// Compares some pairs of clauses.
    fn all(&mut self, name: &str, file: &[u8], pairs: &[[u16; 2]]) {
        pairs.iter().for_each(|&clauses| self.same(name, file, clauses, longer(usize::from(clauses[0] % 3))));
    }
}

#[test]
fn all_stored_vectors() {
    with_stack(|| {
        let (mut both, mut random) = (Both::default(), SplitMix64::new(1));
        for example in groups().into_iter().flat_map(|group| group.examples) {
            let clauses = Clauses::of(&example.file);
            both.all(&example.name, &example.file, &clauses.a_dozen(&mut random));
            both.all(&example.name, &example.file, &[clauses.some_two(&mut random)]);
        }
        let [no, yes, refused] = both.met;
        assert!(no > 2000 && yes > 2000 && refused > 2000, "{:?}", both.met);
    });
}

#[test]
fn files_made_for_comparing() {
    with_stack(|| {
        let mut both = Both::default();
        for seed in 0..1000 {
            let file = covering_file(seed);
            let clauses = Clauses::of(&file);
            both.all(&format!("covering {seed}"), &file, &clauses.every_two());
        }
        let [no, yes, refused] = both.met;
        assert!(no > 10_000 && yes > 8000 && refused > 1000, "{:?}", both.met);
    });
}

#[test]
fn random_and_damaged_files() {
    with_stack(|| {
        let (mut both, mut random) = (Both::default(), SplitMix64::new(2));
        for seed in 0..200 {
            let files = [random_file(seed), several_file(seed), repeating_file(seed), covering_file(seed)];
            for file in files.iter().cloned().chain(files.iter().map(|file| damage(file, seed))) {
                let pairs = Clauses::of(&file).a_dozen(&mut random);
                both.all(&format!("seed {seed}"), &file, &pairs);
            }
        }
        let [no, yes, refused] = both.met;
        assert!(no > 3000 && yes > 2000 && refused > 3000, "{:?}", both.met);
    });
}

#[test]
fn comparisons_made_to_take_long() {
    with_stack(|| {
        let mut both = Both::default();
        for question in questions() {
            let [c, d] = question.clauses;
            both.all(&question.name, &question.file, &[[c, d], [d, c], [c, c], [d, d]]);
        }
        let [no, yes, refused] = both.met;
        assert!(no > 4 && yes > 8 && refused == 0, "{:?}", both.met);
    });
}

#[test]
fn files_of_every_kind_with_tables_of_any_length() {
    with_stack(|| {
        let mut both = Both::default();
        for seed in 0..3000 {
            let (file, lengths) = (day_and_file_of(seed).1, for_covering(lengths_of(seed)));
            let two = Clauses::of(&file).some_two(&mut SplitMix64::new(seed));
            both.same(&format!("file {seed}"), &file, two, lengths);
        }
        assert!(both.met.iter().all(|&met| met > 300), "{:?}", both.met);
    });
}

#[test]
fn clauses_past_the_last() {
    with_stack(|| {
        let mut both = Both::default();
        let mut files: Vec<Vec<u8>> = (0..40).map(covering_file).collect();
        files.extend([vec![], cases::case_a()]);
        for file in &files {
            let count = Clauses::of(file).count;
            let past = [count, count + 1, 4095, 4096, 4097, 8191, 8192, 32_767, 32_768, u16::MAX];
            let pairs = past.iter().flat_map(|&past| [[past, 0], [0, past], [past, past], [past, count]]);
            both.all("a clause that is not there", file, &pairs.collect::<Vec<_>>());
        }
        assert_eq!(both.met, [0, 0, 40 * files.len()]);
    });
}

/// The refusal in numbers.
const REFUSED: [u16; COVERING_CELLS] = [2, 15, 0, 0, 0, 0, 0, 0, 0, 0];

#[test]
fn short_tables() {
    with_stack(|| {
        let mut both = Both::default();
        for (short, least) in LENGTHS.into_iter().enumerate() {
            for length in [0, 1, least - 1, least] {
                let mut lengths = longer(3);
                lengths.tables[short] = length;
                both.same("case A", &cases::case_a(), [0, 0], lengths);
                both.same("fifteen bytes", &[0; 15], [0, 0], lengths);
            }
        }
        // Only where the length is the least one is case A compared.
        assert_eq!(both.met, [0, 4, 28]);
    });
}

#[test]
fn short_tables_are_left_alone() {
    with_stack(|| {
        for (short, least) in LENGTHS.into_iter().enumerate() {
            let mut lengths = LENGTHS;
            lengths[short] = least - 1;
            let mut tables = lengths.map(|cells| vec![7; cells]);
            let [symbols, rows, clauses, bindings] = &mut tables;
            let mut lent = Tables { symbols, rows, clauses, bindings };
            assert_eq!(covers_here(&cases::case_a(), 0, 0, &mut lent).numbers(), REFUSED);
            assert!(tables.iter().flatten().all(|&cell| cell == 7));
        }
    });
}

#[test]
fn answers_of_any_length() {
    with_stack(|| {
        // A yes, a no, a clause that is derived, and one that is not there.
        for (two, first) in [([1, 1], 1), ([0, 1], 0), ([3, 0], 2), ([0, 5], 2)] {
            for length in 0..=12 {
                let mut tables = LENGTHS.map(|cells| vec![7; cells]);
                let [symbols, rows, clauses, bindings] = &mut tables;
                let mut answer = vec![7; length];
                let mut lent = Tables { symbols, rows, clauses, bindings };
                covers_numbers(&cases::case_a(), two[0], two[1], &mut lent, &mut answer);
                if length < COVERING_CELLS {
                    assert!(tables.iter().flatten().chain(&answer).all(|&cell| cell == 7), "{length} cells");
                } else {
                    let (numbers, after) = answer.split_at(COVERING_CELLS);
                    let second = yestrwyn_second::covers(&cases::case_a(), two[0], two[1]);
                    assert_eq!((numbers, numbers[0]), (second.numbers().as_slice(), first));
                    assert!(after.iter().all(|&cell| cell == 7), "{length} cells");
                }
                let lengths = Lengths { answer: length, ..longer(1) };
                Both::default().same("case A", &cases::case_a(), two, lengths);
            }
        }
    });
}

#[test]
fn files_of_any_length() {
    with_stack(|| {
        let mut both = Both::default();
        for length in [0, 1, 15, 16, 17, 65_520, 65_536, 65_537, 65_552, 70_000] {
            both.same("zeros", &vec![0; length], [0, 0], longer(1));
        }
        assert_eq!(both.met, [0, 0, 10]);
    });
}

#[test]
fn the_value_is_the_numbers() {
    for seed in 0..100 {
        let file = if seed % 4 == 0 { damage(&covering_file(seed), seed) } else { covering_file(seed) };
        let [c, d] = Clauses::of(&file).some_two(&mut SplitMix64::new(seed));
        let (mut ours, mut theirs) = (Cells::new(), Cells::new());
        let second = yestrwyn_second::covers_into(&file, c, d, &mut theirs.lend());
        assert_eq!(covers_into(&file, c, d, &mut ours.lend()).expect("a thread"), second);
        assert_eq!(covers(&file, c, d).expect("a thread"), second);
        assert_eq!(Covering::from_numbers(second.numbers()), second);
        assert_eq!(ours, theirs);
    }
}

/// The tables are as after a check, also where the clauses are not compared.
#[test]
fn the_tables_are_those_of_the_check() {
    with_stack(|| {
        for seed in 0..200 {
            let (_, file) = day_and_file_of(seed);
            let two = Clauses::of(&file).some_two(&mut SplitMix64::new(seed));
            let [mut ours, mut theirs] = [(); 2].map(|()| Cells::new());
            covers_here(&file, two[0], two[1], &mut ours.lend());
            yestrwyn::check_here(0, &file, &mut theirs.lend());
            assert!(ours == theirs, "seed {seed}, clauses {two:?}");
        }
    });
}

/// The number of cells is that of the header.
#[test]
fn the_length_of_the_header() {
    let path = Path::new(env!("CARGO_MANIFEST_DIR")).join("../../crates/checker_c/checker.h");
    let header = fs::read_to_string(path).expect("the header");
    assert!(header.contains(&format!("#define CHECKER_COVERING {COVERING_CELLS}\n")));
}
