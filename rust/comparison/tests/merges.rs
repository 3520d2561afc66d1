//! Two files merged into one: the proved function and the second implementation give equal numbers, cells and bytes.
//!
//! Every test runs in a thread with a larger stack than a test's own 2 MiB: see `yestrwyn::with_stack`.

use std::fs;
use std::path::Path;

use yestrwyn::exported::merge_numbers;
use yestrwyn::limits::FILE_BYTES;
use yestrwyn::{
    check_here, merge, merge_here, merge_into, Cells, Merged, Tables, Verdict, LENGTHS, MERGED_CELLS,
};
use yestrwyn_comparison::merges::{pair_of, Merges};
use yestrwyn_comparison::outputs::OutputLengths;
use yestrwyn_vectors::examples::deep;
use yestrwyn_vectors::examples::merges::{examples, Merge};
use yestrwyn_vectors::merges::{damaged_pair, pairs, random_pair};
use yestrwyn_vectors::stored::groups;

/// Runs a test with stack enough for every file.
fn with_stack(test: impl FnOnce() + Send) {
    yestrwyn::with_stack(test).expect("a thread");
}

/// Both implementations, and how many merged files they have written and how many pairs refused.
#[derive(Default)]
struct Both {
    merges: Merges,
    written: usize,
    refused: usize,
}

impl Both {
    /// Merges a pair by both.
    fn same(&mut self, pair: &Merge, lengths: OutputLengths) {
        match self.merges.compare([&pair.first, &pair.second], lengths, 0xabcd) {
            Ok(Some(0)) => self.written += 1,
            Ok(Some(_)) => self.refused += 1,
            Ok(None) => {}
            Err(difference) => panic!("{difference}; {} with {lengths:?}", pair.name),
        }
    }
}

/// The pair of a name.
fn named(name: &str) -> Merge {
    examples().into_iter().find(|pair| pair.name == name).unwrap_or_else(|| panic!("no pair {name}"))
}

#[test]
fn all_stored_merges() {
    with_stack(|| {
        let mut both = Both::default();
        for (pair, more) in pairs().iter().zip([0, 1, 5].into_iter().cycle()) {
            both.same(pair, OutputLengths::longer(more));
        }
        assert!(both.written > 60 && both.refused > 60, "{} and {}", both.written, both.refused);
    });
}

#[test]
fn random_and_damaged_pairs() {
    with_stack(|| {
        let mut both = Both::default();
        for seed in 1000..3000 {
            both.same(&random_pair(seed), OutputLengths::longer((seed % 3) as usize));
            both.same(&damaged_pair(seed), OutputLengths::longer((seed % 4) as usize));
        }
        assert!(both.written > 1200 && both.refused > 1200, "{} and {}", both.written, both.refused);
    });
}

#[test]
fn pairs_of_every_kind_with_parts_of_any_length() {
    with_stack(|| {
        let mut both = Both::default();
        for seed in 0..3000 {
            both.same(&pair_of(seed), OutputLengths::of(seed));
        }
        assert!(both.written > 800 && both.refused > 800, "{} and {}", both.written, both.refused);
    });
}

/// Every stored file as the first, as the second, and as both.
#[test]
fn stored_vectors() {
    with_stack(|| {
        let mut both = Both::default();
        let empty = Vec::new();
        for example in groups().into_iter().flat_map(|group| group.examples) {
            let file = example.file;
            for (first, second) in [(&file, &empty), (&empty, &file), (&file, &file)] {
                let pair = Merge::new(&example.name, first.clone(), second.clone());
                both.same(&pair, OutputLengths::longer(1));
            }
        }
        assert!(both.written > 200 && both.refused > 4000, "{} and {}", both.written, both.refused);
    });
}

/// Files whose check takes much stack, on either side.
#[test]
fn deep_files() {
    with_stack(|| {
        let mut both = Both::default();
        let trip = random_pair(3).second;
        for example in deep::examples() {
            let name = &example.name;
            both.same(&Merge::new(name, example.file.clone(), trip.clone()), OutputLengths::longer(0));
            both.same(&Merge::new(name, trip.clone(), example.file), OutputLengths::longer(2));
        }
        assert!(both.refused > 20, "{} and {}", both.written, both.refused);
    });
}

#[test]
fn outputs_of_any_length() {
    with_stack(|| {
        let mut both = Both::default();
        let names = ["equal-symbols", "both-empty", "4096-records", "17-file-1-in-both", "1-file-1"];
        for pair in names.map(named) {
            for output in [0, 1, 16, 304, 4096, 65_520, 65_535, 65_536, 65_537, 131_072] {
                both.same(&pair, OutputLengths { output, ..OutputLengths::longer(0) });
            }
        }
        // Three of the pairs are written, where the output has 65,536 bytes or more.
        assert_eq!((both.written, both.refused), (9, 41));
    });
}

#[test]
fn short_tables() {
    with_stack(|| {
        let mut both = Both::default();
        for (short, least) in LENGTHS.into_iter().enumerate() {
            for length in [0, 1, least - 1, least] {
                let mut lengths = OutputLengths::longer(3);
                lengths.tables[short] = length;
                for name in ["equal-symbols", "1-file-1", "1-file-2"] {
                    both.same(&named(name), lengths);
                    both.same(&named(name), OutputLengths { output: 65_535, ..lengths });
                }
            }
        }
        // Only where the length is the least one is the first pair merged.
        assert_eq!((both.written, both.refused), (4, 92));
    });
}

/// Nothing at all is touched where the answer or the output is too short.
#[test]
fn short_answers_and_outputs_touch_nothing() {
    with_stack(|| {
        for name in ["equal-symbols", "18-file-2-symbol-0", "3-file-1"] {
            let Merge { first, second, .. } = named(name);
            for (cells, bytes) in
                (0..MERGED_CELLS).map(|cells| (cells, FILE_BYTES)).chain([(6, FILE_BYTES - 1), (3, 0)])
            {
                let mut tables = LENGTHS.map(|cells| vec![7; cells]);
                let [symbols, rows, clauses, bindings] = &mut tables;
                let (mut output, mut answer) = (vec![7; bytes], vec![7; cells]);
                let mut lent = Tables { symbols, rows, clauses, bindings };
                merge_numbers(&first, &second, &mut lent, &mut output, &mut answer);
                assert!(
                    tables.iter().flatten().all(|&cell| cell == 7),
                    "{name}, {cells} cells, {bytes} bytes"
                );
                assert!(output.iter().all(|&byte| byte == 7), "{name}, {cells} cells, {bytes} bytes");
                let right = if cells < MERGED_CELLS { vec![7; cells] } else { vec![2, 2, 0, 0, 7, 7] };
                assert_eq!(answer, right, "{name}, {bytes} bytes");
            }
        }
    });
}

#[test]
fn answers_of_any_length() {
    with_stack(|| {
        let mut both = Both::default();
        for name in ["equal-symbols", "17-file-2-kind-5", "4096-records", "4097-records", "5-file-2"] {
            for answer in 0..=6 {
                both.same(&named(name), OutputLengths { answer, ..OutputLengths::longer(1) });
            }
        }
        assert_eq!((both.written, both.refused), (6, 9));
    });
}

#[test]
fn files_of_any_length() {
    with_stack(|| {
        let mut both = Both::default();
        let lengths = [0, 1, 15, 16, 17, 65_520, 65_536, 65_537, 65_552, 70_000];
        for (one, other) in lengths.iter().flat_map(|&one| lengths.map(|other| (one, other))) {
            // Rows of variable 2, the last of which may be cut.
            let file = |length: usize| {
                [2u8, 0, 2, 0, 0, 0, 0, 0, 0, 0, 0, 0, 0, 0, 0, 0].repeat(length / 16 + 1)[..length].to_vec()
            };
            both.same(
                &Merge::new(&format!("{one} and {other} bytes"), file(one), file(other)),
                OutputLengths::longer(1),
            );
        }
        // Nothing, 1, 4,095 and 4,096 records, where these are 4,096 at most together.
        assert_eq!((both.written, both.refused), (10, 90));
    });
}

/// One file lent twice: both are only read.
#[test]
fn a_file_with_itself() {
    with_stack(|| {
        let mut both = Both::default();
        for seed in 0..500 {
            let Merge { first, .. } = random_pair(seed);
            if let Err(difference) = both.merges.compare([&first, &first], OutputLengths::longer(1), 0x1234) {
                panic!("{difference}; seed {seed}");
            }
        }
    });
}

#[test]
fn the_value_is_the_numbers() {
    for seed in 0..100 {
        let Merge { first, second, .. } = pair_of(seed);
        let (mut ours, mut theirs) = (Cells::new(), Cells::new());
        let [mut output, mut other] = [(); 2].map(|()| vec![9; FILE_BYTES + 3]);
        let right = yestrwyn_second::merge_into(&first, &second, &mut theirs.lend(), &mut other);
        let merged = merge_into(&first, &second, &mut ours.lend(), &mut output).expect("a thread");
        assert_eq!(merged, right, "seed {seed}");
        assert!(output == other && ours == theirs, "seed {seed}");
        assert_eq!(merge(&first, &second).expect("a thread"), yestrwyn_second::merge(&first, &second));
        assert_eq!(Merged::from_numbers(right.numbers()), right);
    }
}

/// The tables are as the last check left them, also where nothing is written.
#[test]
fn the_tables_are_those_of_the_last_check() {
    with_stack(|| {
        let mut output = vec![0; FILE_BYTES];
        for pair in examples().into_iter().chain((0..200).map(pair_of)) {
            let [mut ours, mut theirs] = [(); 2].map(|()| Cells::new());
            merge_here(&pair.first, &pair.second, &mut ours.lend(), &mut output);
            let answer = check_here(0, &pair.first, &mut theirs.lend());
            if !matches!(answer.verdict, Verdict::Refused { .. }) {
                check_here(0, &pair.second, &mut theirs.lend());
            }
            assert!(ours == theirs, "{}", pair.name);
        }
    });
}

/// The merged file stands by the proved check, on every day.
#[test]
fn merged_files_stand() {
    with_stack(|| {
        let (mut cells, mut output, mut written) = (Cells::new(), vec![0; FILE_BYTES], 0);
        for pair in examples().into_iter().chain((0..500).map(random_pair)) {
            let merged = merge_here(&pair.first, &pair.second, &mut cells.lend(), &mut output);
            let Some(length) = merged.length() else { continue };
            for day in [0, 9, 65_535] {
                let answer = check_here(day, &output[..length], &mut cells.lend());
                assert!(!matches!(answer.verdict, Verdict::Refused { .. }), "{} on day {day}", pair.name);
            }
            written += 1;
        }
        assert!(written > 250, "{written} are written");
    });
}

/// The header declares the function.
#[test]
fn the_header_has_the_merge() {
    let path = Path::new(env!("CARGO_MANIFEST_DIR")).join("../../crates/checker_c/checker.h");
    let header = fs::read_to_string(path).expect("the header");
    assert!(header.contains("void checker_merge("));
}
