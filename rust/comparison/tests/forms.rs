//! Files of either form, checked and converted: the proved functions and the second implementation give equal numbers, cells and
//! bytes.
//!
//! Every test runs in a thread with a larger stack than a test's own 2 MiB: see `yestrwyn::with_stack`.

use std::fs;
use std::path::Path;

use yestrwyn::exported::check_form_numbers;
use yestrwyn::limits::FILE_BYTES;
use yestrwyn::{
    check_form, check_form_here, check_form_into, check_here, to_new, to_new_here, to_new_into, to_old,
    to_old_here, to_old_into, Cells, Converted, Form, Tables, Verdict, ANSWER_CELLS, CONVERTED_CELLS,
    LENGTHS,
};
use yestrwyn_comparison::compare::{lengths_of, Lengths};
use yestrwyn_comparison::forms::{convert_numbers, form_of, Forms};
use yestrwyn_comparison::outputs::OutputLengths;
use yestrwyn_vectors::examples::deep;
use yestrwyn_vectors::examples::forms::{examples, Formed};
use yestrwyn_vectors::forms::{damaged_form, files, random_form};
use yestrwyn_vectors::stored::groups;
use yestrwyn_vectors::widened;

/// Runs a test with stack enough for every file.
fn with_stack(test: impl FnOnce() + Send) {
    yestrwyn::with_stack(test).expect("a thread");
}

/// Both implementations, and what they have met.
#[derive(Default, Debug)]
struct Met {
    /// Open, accepted, refused.
    checked: [usize; 3],
    /// Converted files that were written, and files that were not converted.
    written: usize,
    refused: usize,
    /// Neither, for want of room.
    untouched: usize,
}

#[derive(Default)]
struct Both {
    forms: Forms,
    met: Met,
}

impl Both {
    /// Checks a file by both.
    fn check(&mut self, file: &Formed, lengths: Lengths) {
        match self.forms.compare(file, lengths, 0xabcd) {
            Ok(Some(kind)) => self.met.checked[usize::from(kind)] += 1,
            Ok(None) => self.met.untouched += 1,
            Err(difference) => panic!("{difference}; {} with {lengths:?}", file.name),
        }
    }

    /// Converts a file by both.
    fn convert(&mut self, Formed { name, form, file, .. }: &Formed, lengths: OutputLengths) {
        match self.forms.convert(*form, file, lengths, 0xabcd) {
            Ok(Some(0)) => self.met.written += 1,
            Ok(Some(_)) => self.met.refused += 1,
            Ok(None) => self.met.untouched += 1,
            Err(difference) => panic!("{difference}; {name} with {lengths:?}"),
        }
    }

    /// Checks and converts a file by both, with parts that are longer than they need to be by some cells.
    fn same(&mut self, file: &Formed, more: usize) {
        self.check(file, Lengths::longer(more));
        self.convert(file, OutputLengths::longer(more));
    }
}

/// The file of a name.
fn named(name: &str) -> Formed {
    examples().into_iter().find(|file| file.name == name).unwrap_or_else(|| panic!("no file {name}"))
}

#[test]
fn all_stored_forms() {
    with_stack(|| {
        let mut both = Both::default();
        for (file, more) in files().iter().zip([0, 1, 5].into_iter().cycle()) {
            both.same(file, more);
        }
        let Met { checked, written, refused, .. } = both.met;
        assert!(checked.iter().all(|&checked| checked > 50), "{checked:?}");
        assert!(written > 200 && refused > 120, "{written} and {refused}");
    });
}

/// Every stored file of the old form, by both forms; and what it is in the new form, whether it stands or not.
#[test]
fn stored_vectors() {
    with_stack(|| {
        let mut both = Both::default();
        for example in groups().into_iter().flat_map(|group| group.examples) {
            let of = |form: Form, file: Vec<u8>| Formed {
                name: example.name.clone(),
                form,
                day: example.day,
                file,
            };
            both.same(&of(Form::Old, example.file.clone()), 1);
            both.same(&of(Form::New, widened(&example.file)), 0);
            both.same(&of(Form::New, example.file.clone()), 2);
        }
        let Met { checked, written, refused, .. } = both.met;
        assert!(checked[1] > 400 && written > 1500 && refused > 2000, "{checked:?}, {written}, {refused}");
    });
}

#[test]
fn random_and_damaged_files() {
    with_stack(|| {
        let mut both = Both::default();
        for form in Form::ALL {
            for seed in 1000..2500 {
                both.same(&random_form(form, seed), (seed % 3) as usize);
                both.same(&damaged_form(form, seed), (seed % 4) as usize);
            }
        }
        let Met { checked, written, refused, .. } = both.met;
        assert!(checked.iter().all(|&checked| checked > 500), "{checked:?}");
        assert!(written > 2000 && refused > 1500, "{written} and {refused}");
    });
}

#[test]
fn files_of_every_kind_with_parts_of_any_length() {
    with_stack(|| {
        let mut both = Both::default();
        for seed in 0..3000 {
            both.check(&form_of(seed), lengths_of(seed));
            both.convert(&form_of(seed), OutputLengths::of(seed));
        }
        let Met { checked, written, refused, untouched } = both.met;
        assert!(checked.iter().all(|&checked| checked > 200), "{checked:?}");
        assert!(written > 800 && refused > 800 && untouched > 50, "{written}, {refused} and {untouched}");
    });
}

/// Files whose check takes much stack, in both forms.
#[test]
fn deep_files() {
    with_stack(|| {
        let mut both = Both::default();
        for example in deep::examples() {
            both.same(&Formed::new(Form::Old, &example.name, example.file.clone()), 0);
            both.same(&Formed::new(Form::New, &example.name, widened(&example.file)), 1);
        }
        assert!(both.met.written > 10, "{:?}", both.met);
    });
}

/// With a number that is no form nothing at all is touched, as with an answer that is too short.
#[test]
fn numbers_that_are_no_form() {
    with_stack(|| {
        let mut forms = Forms::default();
        for name in
            ["new-10-to-20-on-10", "old-10-to-20-on-10", "16-before-7", "1-16-bytes", "new-empty-on-1"]
        {
            let Formed { day, file, .. } = named(name);
            for number in (0..=64).chain([256, 272, 276, 4096, 4112, 5120, 16 << 8, 20 << 8, 32_784, 65_535])
            {
                let kind = forms.compare_number(number, (day, &file), Lengths::longer(1), 0x1234);
                let kind = kind.unwrap_or_else(|difference| panic!("{difference}; {name} as form {number}"));
                assert_eq!(kind.is_some(), [16, 20].contains(&number), "{name} as form {number}");
            }
        }
        let (mut tables, mut answer) = (LENGTHS.map(|cells| vec![7; cells]), [7; ANSWER_CELLS]);
        let [symbols, rows, clauses, bindings] = &mut tables;
        let mut lent = Tables { symbols, rows, clauses, bindings };
        check_form_numbers(18, 0, &named("new-10-to-20-on-10").file, &mut lent, &mut answer);
        assert!(tables.iter().flatten().chain(&answer).all(|&cell| cell == 7));
    });
}

#[test]
fn answers_of_any_length() {
    with_stack(|| {
        let mut both = Both::default();
        for name in ["new-10-to-20-on-10", "old-10-to-20-on-9", "16-before-7", "22-to-new-3277-records"] {
            for answer in 0..=9 {
                both.check(&named(name), Lengths { answer, ..Lengths::longer(1) });
                both.convert(&named(name), OutputLengths { answer, ..OutputLengths::longer(1) });
            }
        }
        let Met { checked, written, refused, untouched } = both.met;
        // Seven cells for a check and four for a conversion; the third file is refused by both, the last by the conversion.
        assert_eq!((checked, written, refused, untouched), ([6, 3, 3], 12, 12, 28 + 16));
    });
}

#[test]
fn outputs_of_any_length() {
    with_stack(|| {
        let mut both = Both::default();
        let names =
            ["new-10-to-20-on-10", "old-empty-on-1", "to-new-3276-records", "16-before-7", "1-16-bytes"];
        for file in names.map(named) {
            for output in [0, 1, 20, 4096, 65_519, 65_520, 65_535, 65_536, 65_537, 131_072] {
                both.convert(&file, OutputLengths { output, ..OutputLengths::longer(0) });
            }
        }
        // Three of the files are written, where the output has 65,536 bytes or more.
        assert_eq!((both.met.written, both.met.refused), (9, 41));
    });
}

#[test]
fn short_tables() {
    with_stack(|| {
        let mut both = Both::default();
        for (short, least) in LENGTHS.into_iter().enumerate() {
            for length in [0, 1, least - 1, least] {
                let (mut lengths, mut outputs) = (Lengths::longer(3), OutputLengths::longer(3));
                lengths.tables[short] = length;
                outputs.tables[short] = length;
                for name in ["new-10-to-20-on-10", "old-10-to-20-on-10", "1-16-bytes", "5-before-16"] {
                    both.check(&named(name), lengths);
                    both.convert(&named(name), outputs);
                    both.convert(&named(name), OutputLengths { output: 65_535, ..outputs });
                }
            }
        }
        // Only where the length is the least one are the first two accepted and converted.
        let Met { checked, written, refused, .. } = both.met;
        assert_eq!((checked, written, refused), ([0, 8, 56], 8, 120));
    });
}

/// Nothing at all is touched where the answer of a conversion or its output is too short.
#[test]
fn short_answers_and_outputs_touch_nothing() {
    with_stack(|| {
        for name in ["new-10-to-20-on-10", "old-10-to-20-on-10", "22-to-new-3277-records", "16-before-7"] {
            let Formed { form, file, .. } = named(name);
            for (cells, bytes) in
                (0..CONVERTED_CELLS).map(|cells| (cells, FILE_BYTES)).chain([(6, FILE_BYTES - 1), (3, 0)])
            {
                let mut tables = LENGTHS.map(|cells| vec![7; cells]);
                let [symbols, rows, clauses, bindings] = &mut tables;
                let (mut output, mut answer) = (vec![7; bytes], vec![7; cells]);
                let mut lent = Tables { symbols, rows, clauses, bindings };
                convert_numbers(form)(&file, &mut lent, &mut output, &mut answer);
                let cells_hold = tables.iter().flatten().all(|&cell| cell == 7);
                assert!(cells_hold, "{name}, {cells} cells, {bytes} bytes");
                assert!(output.iter().all(|&byte| byte == 7), "{name}, {cells} cells, {bytes} bytes");
                let right = if cells < CONVERTED_CELLS { vec![7; cells] } else { vec![2, 2, 0, 0, 7, 7] };
                assert_eq!(answer, right, "{name}, {bytes} bytes");
            }
        }
    });
}

/// Where the result has too many records the output is as it was.
#[test]
fn too_many_records_leave_the_output_alone() {
    with_stack(|| {
        let names = [
            "22-to-new-3277-records",
            "22-to-new-4096-records",
            "22-to-new-3277-records-and-819-of-days",
            "22-to-old-3276-records-of-which-821-have-days",
            "22-to-old-3276-records-of-which-3274-have-days",
        ];
        for Formed { name, form, file, .. } in names.map(named) {
            let (mut output, mut answer) = (vec![7; FILE_BYTES], [7; CONVERTED_CELLS]);
            convert_numbers(form)(&file, &mut Cells::new().lend(), &mut output, &mut answer);
            assert_eq!(answer, [2, 22, 0, 0], "{name}");
            assert!(output.iter().all(|&byte| byte == 7), "{name}");
        }
    });
}

#[test]
fn files_of_any_length() {
    with_stack(|| {
        let mut both = Both::default();
        let lengths =
            [0, 1, 15, 16, 17, 19, 20, 21, 40, 80, 65_500, 65_519, 65_520, 65_536, 65_537, 65_540, 70_000];
        for (form, length) in Form::ALL.into_iter().flat_map(|form| lengths.map(|length| (form, length))) {
            // Symbols, the last of which may be cut.
            let mut record = vec![0u8; form.record_bytes()];
            record[0] = 1;
            let file = record.repeat(length / record.len() + 1)[..length].to_vec();
            both.same(&Formed::new(form, &format!("{length} bytes of {form:?}"), file), 1);
        }
        // Old: 0, 1, 5 and thousands of records, of which 4,095 and 4,096 are too many for the new form.
        // New: 0, 1, 2, 4, 3,275 and 3,276.
        let Met { checked, written, refused, .. } = both.met;
        assert_eq!((checked, written, refused), ([11, 0, 23], 9, 25));
    });
}

#[test]
fn the_value_is_the_numbers() {
    for seed in 0..100 {
        let Formed { day, form, file, .. } = form_of(seed);
        let (mut ours, mut theirs) = (Cells::new(), Cells::new());
        let right = yestrwyn_second::check_form_into(form, day, &file, &mut theirs.lend());
        let answer = check_form_into(form, day, &file, &mut ours.lend()).expect("a thread");
        assert!(answer == right && ours == theirs, "seed {seed}");
        assert_eq!(check_form(form, day, &file).expect("a thread"), right, "seed {seed}");
        let [mut output, mut other] = [(); 2].map(|()| vec![9; FILE_BYTES + 3]);
        let (converted, right) = match form {
            Form::Old => (
                to_new_into(&file, &mut ours.lend(), &mut output),
                yestrwyn_second::to_new_into(&file, &mut theirs.lend(), &mut other),
            ),
            Form::New => (
                to_old_into(&file, &mut ours.lend(), &mut output),
                yestrwyn_second::to_old_into(&file, &mut theirs.lend(), &mut other),
            ),
        };
        assert_eq!(converted.expect("a thread"), right, "seed {seed}");
        assert!(output == other && ours == theirs, "seed {seed}");
        assert_eq!(to_new(&file).expect("a thread"), yestrwyn_second::to_new(&file), "seed {seed}");
        assert_eq!(to_old(&file).expect("a thread"), yestrwyn_second::to_old(&file), "seed {seed}");
        assert_eq!(Converted::from_numbers(right.numbers()), right);
    }
}

/// A file of the old form is answered as before, cell by cell.
#[test]
fn the_old_form_is_checked_as_before() {
    with_stack(|| {
        for seed in 0..500 {
            let Formed { day, file, .. } = random_form(Form::Old, seed);
            let [mut ours, mut theirs] = [(); 2].map(|()| Cells::new());
            let answer = check_form_here(Form::Old, day, &file, &mut ours.lend());
            assert_eq!(answer, check_here(day, &file, &mut theirs.lend()), "seed {seed}");
            assert!(ours == theirs, "seed {seed}");
        }
    });
}

/// By the proved functions alone: a file and its conversion have the same answer on each day, and back from the new form it has
/// the same bytes.
#[test]
fn round_trips() {
    with_stack(|| {
        let (mut cells, mut written) = (Cells::new(), 0);
        let [mut output, mut back] = [(); 2].map(|()| vec![0; FILE_BYTES]);
        let random = Form::ALL.into_iter().flat_map(|form| (0..500).map(move |seed| random_form(form, seed)));
        for Formed { name, form, day, file } in examples().into_iter().chain(random) {
            let mut convert = |form: Form, file: &[u8], output: &mut [u8]| match form {
                Form::Old => to_new_here(file, &mut cells.lend(), output),
                Form::New => to_old_here(file, &mut cells.lend(), output),
            };
            let Some(length) = convert(form, &file, &mut output).length() else { continue };
            let returned =
                convert(form.other(), &output[..length], &mut back).length().expect("it is converted back");
            if form == Form::New {
                assert!(back[..returned] == file, "{name}");
            }
            written += 1;
            for day in [day.wrapping_sub(1), day, day.wrapping_add(1), 0, u16::MAX] {
                let answer = check_form_here(form, day, &file, &mut cells.lend());
                assert!(!matches!(answer.verdict, Verdict::Refused { .. }), "{name}");
                let other = check_form_here(form.other(), day, &output[..length], &mut cells.lend());
                assert_eq!(answer, other, "{name} on day {day}");
                assert_eq!(
                    answer,
                    check_form_here(form, day, &back[..returned], &mut cells.lend()),
                    "{name}"
                );
            }
        }
        assert!(written > 700, "{written} are written");
    });
}

/// The header declares the functions.
#[test]
fn the_header_has_both_forms() {
    let path = Path::new(env!("CARGO_MANIFEST_DIR")).join("../../crates/checker_c/checker.h");
    let header = fs::read_to_string(path).expect("the header");
    for name in ["check_form", "to_new", "to_old"] {
        assert!(header.contains(&format!("void checker_{name}(")), "{name}");
    }
}
