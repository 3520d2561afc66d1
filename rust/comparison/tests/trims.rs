//! Files trimmed: the proved function and the second implementation give equal numbers, cells and bytes.
//!
//! Every test runs in a thread with a larger stack than a test's own 2 MiB: see `yestrwyn::with_stack`.

use yestrwyn::exported::trim_numbers;
use yestrwyn::limits::FILE_BYTES;
use yestrwyn::{check_here, trim, trim_here, trim_into, Cells, Tables, Trimmed, Verdict};
use yestrwyn::{LENGTHS, TRIMMED_CELLS};
use yestrwyn_comparison::outputs::OutputLengths;
use yestrwyn_comparison::trims::{trim_of, Trims};
use yestrwyn_vectors::examples::trims::examples;
use yestrwyn_vectors::examples::{deep, Example};
use yestrwyn_vectors::stored::groups;
use yestrwyn_vectors::trims::{damaged_trim, files, random_trim};

/// Runs a test with stack enough for every file.
fn with_stack(test: impl FnOnce() + Send) {
    yestrwyn::with_stack(test).expect("a thread");
}

/// Both implementations, and what they have met: trimmed files that were written, files that were refused, and neither, for want of
/// room.
#[derive(Default)]
struct Both {
    trims: Trims,
    met: [usize; 3],
}

impl Both {
    /// Trims a file by both.
    fn trim(&mut self, Example { name, day, file }: &Example, lengths: OutputLengths) {
        match self.trims.compare((*day, file), lengths, 0xabcd) {
            Ok(Some(0)) => self.met[0] += 1,
            Ok(Some(_)) => self.met[1] += 1,
            Ok(None) => self.met[2] += 1,
            Err(difference) => panic!("{difference}; {name} with {lengths:?}"),
        }
    }

    /// The same with parts that are longer than they need to be by some cells.
    fn same(&mut self, file: &Example, more: usize) {
        self.trim(file, OutputLengths::longer(more));
    }
}

/// The file of a name.
fn named(name: &str) -> Example {
    examples().into_iter().find(|file| file.name == name).unwrap_or_else(|| panic!("no file {name}"))
}

#[test]
fn all_stored_trims() {
    with_stack(|| {
        let mut both = Both::default();
        for (file, more) in files().iter().zip([0, 1, 5].into_iter().cycle()) {
            both.same(file, more);
        }
        let [written, refused, _] = both.met;
        assert!(written > 70 && refused > 30, "{written} and {refused}");
    });
}

/// Every stored file of the old form, on its day.
#[test]
fn stored_vectors() {
    with_stack(|| {
        let mut both = Both::default();
        for example in groups().into_iter().flat_map(|group| group.examples) {
            both.same(&example, 1);
        }
        let [written, refused, _] = both.met;
        assert!(written > 400 && refused > 1000, "{written} and {refused}");
    });
}

#[test]
fn random_and_damaged_files() {
    with_stack(|| {
        let mut both = Both::default();
        for seed in 1000..2500 {
            both.same(&random_trim(seed), (seed % 3) as usize);
            both.same(&damaged_trim(seed), (seed % 4) as usize);
        }
        let [written, refused, _] = both.met;
        assert!(written > 1000 && refused > 1000, "{written} and {refused}");
    });
}

#[test]
fn files_of_every_kind_with_parts_of_any_length() {
    with_stack(|| {
        let mut both = Both::default();
        for seed in 0..3000 {
            both.trim(&trim_of(seed), OutputLengths::of(seed));
        }
        let [written, refused, untouched] = both.met;
        assert!(written > 1000 && refused > 800 && untouched > 20, "{:?}", both.met);
    });
}

/// Files whose check takes much stack.
#[test]
fn deep_files() {
    with_stack(|| {
        let mut both = Both::default();
        for example in deep::examples() {
            both.same(&example, 0);
        }
    });
}

#[test]
fn answers_of_any_length() {
    with_stack(|| {
        let mut both = Both::default();
        for name in ["all-of-resolve", "thousands-of-unused-rules", "23-no-step", "3-kind-9"] {
            for answer in 0..=9 {
                both.trim(&named(name), OutputLengths { answer, ..OutputLengths::longer(1) });
            }
        }
        assert_eq!(both.met, [12, 12, 16]);
    });
}

#[test]
fn outputs_of_any_length() {
    with_stack(|| {
        let mut both = Both::default();
        let names =
            ["all-of-resolve", "all-of-4096-records", "23-no-record", "3-kind-9", "1-a-byte-too-many"];
        for file in names.map(named) {
            for output in [0, 1, 16, 80, 4096, 65_535, 65_536, 65_537, 131_072] {
                both.trim(&file, OutputLengths { output, ..OutputLengths::longer(0) });
            }
        }
        // Two of the files are written, where the output has 65,536 bytes or more.
        assert_eq!(both.met, [6, 39, 0]);
    });
}

#[test]
fn short_tables() {
    with_stack(|| {
        let mut both = Both::default();
        for (short, least) in LENGTHS.into_iter().enumerate() {
            for length in [0, 1, least - 1, least] {
                let mut lengths = OutputLengths::longer(3);
                lengths.tables[short] = length;
                for name in ["all-of-resolve", "23-no-step", "3-kind-9", "1-a-byte-too-many"] {
                    both.trim(&named(name), lengths);
                    both.trim(&named(name), OutputLengths { output: 65_535, ..lengths });
                }
            }
        }
        // Only where the length is the least one is the first file written.
        assert_eq!(both.met, [4, 124, 0]);
    });
}

/// Nothing at all is touched where the answer or the output is too short.
#[test]
fn short_answers_and_outputs_touch_nothing() {
    with_stack(|| {
        for Example { name, day, file } in ["all-of-resolve", "23-no-step", "3-kind-9"].map(named) {
            for (cells, bytes) in
                (0..TRIMMED_CELLS).map(|cells| (cells, FILE_BYTES)).chain([(6, FILE_BYTES - 1), (3, 0)])
            {
                let mut tables = LENGTHS.map(|cells| vec![7; cells]);
                let [symbols, rows, clauses, bindings] = &mut tables;
                let (mut output, mut answer) = (vec![7; bytes], vec![7; cells]);
                let mut lent = Tables { symbols, rows, clauses, bindings };
                trim_numbers(day, &file, &mut lent, &mut output, &mut answer);
                assert!(
                    tables.iter().flatten().all(|&cell| cell == 7),
                    "{name}, {cells} cells, {bytes} bytes"
                );
                assert!(output.iter().all(|&byte| byte == 7), "{name}, {cells} cells, {bytes} bytes");
                let right = if cells < TRIMMED_CELLS { vec![7; cells] } else { vec![2, 2, 0, 0, 7, 7] };
                assert_eq!(answer, right, "{name}, {bytes} bytes");
            }
        }
    });
}

/// Where a file is not accepted on the day the output is as it was, and so it is where the file is refused.
#[test]
fn refusals_leave_the_output_alone() {
    with_stack(|| {
        for Example { name, day, file } in
            examples().into_iter().filter(|file| file.name.as_bytes()[0].is_ascii_digit())
        {
            let (mut output, mut answer) = (vec![7; FILE_BYTES], [7; TRIMMED_CELLS]);
            trim_numbers(day, &file, &mut Cells::new().lend(), &mut output, &mut answer);
            assert_eq!((answer[0], answer[2]), (2, 1), "{name}");
            assert_eq!(answer[1].to_string(), name.split('-').next().unwrap_or(""), "{name}");
            assert!(output.iter().all(|&byte| byte == 7), "{name}");
        }
    });
}

#[test]
fn the_value_is_the_numbers() {
    for seed in 0..100 {
        let Example { day, file, .. } = trim_of(seed);
        let [mut ours, mut theirs] = [(); 2].map(|()| Cells::new());
        let [mut output, mut other] = [(); 2].map(|()| vec![9; FILE_BYTES + 3]);
        let right = yestrwyn_second::trim_into(day, &file, &mut theirs.lend(), &mut other);
        let trimmed = trim_into(day, &file, &mut ours.lend(), &mut output).expect("a thread");
        assert_eq!(trimmed, right, "seed {seed}");
        assert!(output == other && ours == theirs, "seed {seed}");
        assert_eq!(trim(day, &file).expect("a thread"), yestrwyn_second::trim(day, &file), "seed {seed}");
        assert_eq!(Trimmed::from_numbers(right.numbers()), right);
    }
}

/// By the proved functions alone: a trimmed file is accepted on the day with its last clause, and trimmed again it is the same.
#[test]
fn trimmed_files_are_accepted_and_trimmed_to_themselves() {
    with_stack(|| {
        let (mut cells, mut written) = (Cells::new(), 0);
        let [mut once, mut twice] = [(); 2].map(|()| vec![0; FILE_BYTES]);
        for Example { name, day, file } in examples().into_iter().chain((0..1000).map(random_trim)) {
            let Some(length) = trim_here(day, &file, &mut cells.lend(), &mut once).length() else { continue };
            let trimmed = &once[..length];
            let answer = check_here(day, trimmed, &mut cells.lend());
            assert_eq!(answer.verdict, Verdict::Accepted(answer.clauses - 1), "{name}");
            let again = trim_here(day, trimmed, &mut cells.lend(), &mut twice).length();
            assert_eq!(again.map(|length| &twice[..length]), Some(trimmed), "{name}");
            written += 1;
        }
        assert!(written > 700, "{written}");
    });
}
