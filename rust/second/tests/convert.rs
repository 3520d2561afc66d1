//! Files converted to the other form: bytes and refusals by hand, lengths at their edge, what is left alone; and on all stored,
//! random and damaged files that both forms say the same, clause for clause and on every day.

mod converting;

use std::collections::HashSet;

use converting::{as_new, as_old, new_contents, old_contents};
use yestrwyn_second::{check_form, check_form_into, to_new, to_new_into, to_old, to_old_into};
use yestrwyn_types::limits::{FILE_BYTES, NEW_RECORDS, RECORDS};
use yestrwyn_types::{Cells, ConversionRefusal, Converted, Form, Reason, Tables, Verdict, LENGTHS};
use yestrwyn_vectors::examples::forms::{examples, many_clauses, many_symbols, Formed};
use yestrwyn_vectors::examples::{boards, canonical, merges};
use yestrwyn_vectors::forms::{convert_into, damaged_form, files, random_form};
use yestrwyn_vectors::merges::random_pair;
use yestrwyn_vectors::random::SplitMix64;
use yestrwyn_vectors::stored::groups;

/// The file of a name.
fn named(name: &str) -> Formed {
    examples().into_iter().find(|file| file.name == name).unwrap_or_else(|| panic!("no file {name}"))
}

/// The records of a file that is converted, in bytes of some length.
fn records(file: &[u8], width: usize) -> Vec<Vec<u8>> {
    file.chunks(width).map(<[u8]>::to_vec).collect()
}

/// A file of a form in the other.
fn convert(form: Form, file: &[u8]) -> Result<Vec<u8>, ConversionRefusal> {
    match form {
        Form::Old => to_new(file),
        Form::New => to_old(file),
    }
}

/// A record that uses the first three fields, all below 256.
fn old_record(kind: u8, count: u8, [a, b, c]: [u8; 3]) -> Vec<u8> {
    vec![kind, count, a, 0, b, 0, c, 0, 0, 0, 0, 0, 0, 0, 0, 0]
}

/// The same in the new form.
fn new_record(kind: u8, count: u8, fields: [u8; 3], beside: [u8; 4]) -> Vec<u8> {
    [old_record(kind, count, fields), beside.to_vec()].concat()
}

#[test]
fn to_the_new_form_by_hand() {
    // p, its row, +p, -p, the step; records of days before and after it.
    let file = [
        old_record(1, 0, [0; 3]),
        old_record(3, 0, [0; 3]),
        old_record(4, 1, [1, 0, 0]),
        old_record(8, 0, [0, 1, 2]),
        old_record(4, 1, [0, 0, 0]),
        vec![5, 0, 0, 0, 1, 0, 1, 0, 1, 0, 0, 0, 0, 0, 0, 0],
        vec![8, 0, 0, 0, 0x34, 0x12, 0xcd, 0xab, 0, 0, 0, 0, 0, 0, 0, 0],
    ]
    .concat();
    let right = [
        new_record(1, 0, [0; 3], [0; 4]),
        new_record(3, 0, [0; 3], [0; 4]),
        new_record(4, 1, [1, 0, 0], [0x34, 0x12, 0xcd, 0xab]),
        new_record(4, 1, [0, 0, 0], [0, 0, 255, 255]),
        vec![5, 0, 0, 0, 1, 0, 1, 0, 1, 0, 0, 0, 0, 0, 0, 0, 0, 0, 0, 0],
    ]
    .concat();
    assert_eq!(to_new(&file).as_ref(), Ok(&right));
    // Back the days stand straight after their clause.
    let back = to_old(&right).expect("it is written");
    let mut expected = records(&file, 16);
    let days = expected.remove(6);
    expected[3] = days;
    assert_eq!(records(&back, 16), expected);
}

#[test]
fn the_number_of_a_clause_counts_derived_ones() {
    let back = to_old(&named("new-after-derived-clauses-on-1").file).expect("it is written");
    let days: Vec<Vec<u8>> = records(&back, 16).into_iter().filter(|record| record[0] == 8).collect();
    let right = [[0, 50, 60], [3, 10, 20], [4, 12, 55]].map(|fields| old_record(8, 0, fields));
    assert_eq!(days, right);
}

/// The days beside clause 0 of a named file of the old form, converted.
fn days_of_the_first(name: &str) -> Option<(u16, u16)> {
    new_contents(&to_new(&named(name).file).expect("it is written")).days[0]
}

#[test]
fn the_last_record_of_days_supersedes() {
    for name in
        ["superseded-once", "superseded-three-times", "superseded-by-the-same", "always-is-superseded"]
    {
        assert_eq!(days_of_the_first(&format!("old-{name}-on-1")), Some((10, 20)), "{name}");
    }
    assert_eq!(days_of_the_first("old-superseded-in-turn-on-1"), Some((12, 18)));
    assert_eq!(days_of_the_first("old-before-and-after-on-1"), Some((10, 20)));
    assert_eq!(days_of_the_first("old-before-its-uses-on-1"), Some((10, 20)));
}

/// A window of 0 to 65,535 is as good as none: beside the clause it stands as always, and it is not written back.
#[test]
fn always_written_out() {
    for name in ["old-always-written-out-on-1", "old-always-supersedes-on-1", "old-0-to-65535-on-0"] {
        let new = to_new(&named(name).file).expect("it is written");
        assert_eq!(new_contents(&new).days[0], Some((0, 65_535)), "{name}");
        assert_eq!(new, to_new(&named("old-no-days-on-1").file).expect("it is written"), "{name}");
        let old = to_old(&new).expect("it is written");
        assert!(records(&old, 16).iter().all(|record| record[0] != 8), "{name}");
        assert_eq!(old, named("old-no-days-on-1").file, "{name}");
    }
}

/// A file whose name begins with a number is refused with it when it is converted, of itself or with 22; all others are converted.
#[test]
fn names_say_what_is_given() {
    for Formed { name, form, file, .. } in examples() {
        let number = name.split('-').next().and_then(|word| word.parse::<u16>().ok());
        let refusal = convert(form, &file).err();
        assert_eq!(refusal.map(|refusal| refusal.reason.number()), number, "{name}");
        assert_eq!(
            refusal.map(|refusal| refusal.file),
            number.map(|number| u16::from(number != 22)),
            "{name}"
        );
    }
}

#[test]
fn as_many_records_as_the_new_form_takes() {
    let refused = Err(ConversionRefusal { reason: Reason::ConvertedLength, file: 0, record: 0 });
    let length = |records: usize| to_new(many_symbols(records).bytes()).map(|file| file.len());
    assert_eq!(length(3276), Ok(65_520));
    assert_eq!([3277, 3278, 4096].map(length), [refused; 3]);
    let named_length = |name: &str| to_new(&named(name).file).map(|file| file.len());
    assert_eq!(named_length("to-new-3276-records-and-820-of-days"), Ok(65_520));
    assert_eq!(named_length("22-to-new-3277-records-and-819-of-days"), refused);
    assert_eq!(named_length("to-new-3276-records-and-1-of-days"), Ok(65_520));
    assert_eq!(named_length("22-to-new-3277-records-and-1-of-days"), refused);
    assert_eq!(named_length("to-new-3-records-and-4093-of-days"), Ok(60));
    // A file that is too long of itself is refused with 1.
    let own = Err(ConversionRefusal { reason: Reason::Length, file: 1, record: 0 });
    assert_eq!(named_length("1-to-new-3-records-and-4094-of-days"), own);
}

#[test]
fn as_many_records_as_the_old_form_takes() {
    let refused = Err(ConversionRefusal { reason: Reason::ConvertedLength, file: 0, record: 0 });
    let length = |records: usize, dated: usize| to_old(&many_clauses(records, dated)).map(|file| file.len());
    assert_eq!(length(3276, 0), Ok(3276 * 16));
    assert_eq!(length(3276, 819), Ok(65_520));
    assert_eq!(length(3276, 820), Ok(65_536));
    assert_eq!(length(3276, 821), refused);
    assert_eq!(length(2049, 2047), Ok(65_536));
    assert_eq!(length(2050, 2047), refused);
    assert_eq!(length(3276, 3274), refused);
    // Every sum around the edge.
    for records in (2050..=NEW_RECORDS).step_by(97) {
        for dated in RECORDS - records - 1..=RECORDS - records + 1 {
            let right = if records + dated > RECORDS { refused } else { Ok(16 * (records + dated)) };
            assert_eq!(length(records, dated), right, "{records} records, {dated} with days");
        }
    }
}

/// What a conversion is lent: tables of marks, each longer than it must be by some cells or shorter, and an output of marks.
#[derive(Clone, PartialEq)]
struct Lent {
    tables: [Vec<u16>; 4],
    output: Vec<u8>,
}

impl Lent {
    fn new(more: [isize; 4], output: usize) -> Lent {
        let mut lengths = LENGTHS.iter().zip(more);
        let tables = [(); 4].map(|()| {
            let (&length, more) = lengths.next().expect("four lengths");
            vec![0xabcd; length.saturating_add_signed(more)]
        });
        Lent { tables, output: (0..output).map(|place| place as u8 ^ 0x5a).collect() }
    }

    fn tables(&mut self) -> Tables<'_> {
        let [symbols, rows, clauses, bindings] = &mut self.tables;
        Tables { symbols, rows, clauses, bindings }
    }

    fn convert(&mut self, form: Form, file: &[u8]) -> Converted {
        let [symbols, rows, clauses, bindings] = &mut self.tables;
        convert_into(form, file, &mut Tables { symbols, rows, clauses, bindings }, &mut self.output)
    }
}

#[test]
fn a_short_output_touches_nothing() {
    let names =
        ["old-10-to-20-on-10", "new-10-to-20-on-10", "16-before-7", "1-16-bytes", "22-to-new-4096-records"];
    for Formed { name, form, file, .. } in names.map(named) {
        for length in [0, 1, 20, 65_520, 65_535] {
            // A short table does not matter: the output comes before all else.
            for more in [[0; 4], [0, -1, 0, 0]] {
                let before = Lent::new(more, length);
                let mut lent = before.clone();
                assert_eq!(lent.convert(form, &file).numbers(), [2, 2, 0, 0], "{name}, {length} bytes");
                assert!(lent == before, "{name}, {length} bytes");
            }
        }
        assert_ne!(Lent::new([0; 4], 65_536).convert(form, &file).numbers(), [2, 2, 0, 0], "{name}");
    }
}

#[test]
fn short_tables_are_the_files_refusal() {
    for short in 0..4 {
        let more = [0, 1, 2, 3].map(|table| if table == short { -1 } else { 1 });
        for form in Form::ALL {
            let before = Lent::new(more, 65_536);
            let mut lent = before.clone();
            // Neither is the file's length wrong, which comes first, nor is any record looked at.
            assert_eq!(lent.convert(form, &[0; 80]).numbers(), [2, 2, 1, 0]);
            assert_eq!(lent.convert(form, &[0; 79]).numbers(), [2, 1, 1, 0]);
            assert!(lent == before);
        }
    }
}

/// With 22 the tables are the check's and the output is as it was.
#[test]
fn too_many_records_leave_the_output_alone() {
    let files = [(Form::Old, many_symbols(3277).finish()), (Form::New, many_clauses(3276, 821))];
    for (form, file) in files {
        let mut lent = Lent::new([2; 4], FILE_BYTES + 5);
        let mut checked = lent.clone();
        assert_eq!(lent.convert(form, &file).numbers(), [2, 22, 0, 0]);
        check_form_into(form, 9, &file, &mut checked.tables());
        assert!(lent == checked);
    }
}

/// Named, random and damaged files of both forms.
fn all_files() -> impl Iterator<Item = Formed> {
    let random = Form::ALL
        .into_iter()
        .flat_map(|form| (0..1500).flat_map(move |seed| [random_form(form, seed), damaged_form(form, seed)]));
    examples().into_iter().chain(random)
}

#[test]
fn tables_and_output_are_left_alone_where_they_must_be() {
    for (Formed { name, form, file, .. }, more) in all_files().zip([0, 1, 3].into_iter().cycle()) {
        let mut lent = Lent::new([more as isize; 4], FILE_BYTES + more);
        let mut checked = lent.clone();
        let converted = lent.convert(form, &file);
        let answer = check_form_into(form, 0, &file, &mut checked.tables());
        assert!(lent.tables == checked.tables, "{name}");
        let written = converted.length().unwrap_or(0);
        assert!(lent.output[written..] == checked.output[written..], "{name}");
        assert_eq!(
            converted.length().map(|length| &lent.output[..length]),
            convert(form, &file).ok().as_deref()
        );
        // The file's own refusal is that of the check.
        match (answer.verdict, converted) {
            (Verdict::Refused { reason, record }, Converted::Refused(refusal)) => {
                assert_eq!(refusal, ConversionRefusal { reason, file: 1, record }, "{name}");
            }
            (_, Converted::Refused(refusal)) => assert_eq!(refusal.reason, Reason::ConvertedLength, "{name}"),
            (verdict, _) => assert!(!matches!(verdict, Verdict::Refused { .. }), "{name}"),
        }
    }
}

/// What the round trips have met.
#[derive(Default, Debug)]
struct Met {
    /// Converted from the old form, from the new, and refused with 22 there.
    converted: [usize; 2],
    too_many: [usize; 2],
    /// With days that are not always, with days superseded, and accepted on some day and open on another.
    dated: usize,
    superseded: usize,
    changing: usize,
}

/// A file that stands, converted and back.
fn round_trip(name: &str, form: Form, file: &[u8], met: &mut Met) {
    let place = usize::from(form == Form::New);
    let contents = if form == Form::Old { old_contents(file) } else { new_contents(file) };
    let converted = match convert(form, file) {
        Ok(converted) => converted,
        Err(refusal) => {
            assert_eq!(refusal, ConversionRefusal { reason: Reason::ConvertedLength, file: 0, record: 0 });
            met.too_many[place] += 1;
            return;
        }
    };
    met.converted[place] += 1;
    let dated = contents.days.iter().flatten().filter(|&&days| days != (0, 65_535)).count();
    met.dated += usize::from(dated > 0);
    same_verdicts(name, form, file, &converted, met);
    let back = convert(form.other(), &converted);
    if form == Form::Old {
        let windows = file.iter().step_by(16).filter(|&&kind| kind == 8).count();
        met.superseded += usize::from(windows > dated);
        assert!(converted == as_new(&contents), "{name}");
        // One record of days for each clause that has any: never more than the file has.
        let back = back.expect("as many records as before, or fewer");
        assert_eq!(old_contents(&back), contents, "{name}");
        assert!(back == as_old(&contents), "{name}");
    } else {
        assert!(converted == as_old(&contents), "{name}");
        // Without the records of days as many are left as there were.
        assert!(back.as_deref() == Ok(file), "{name}");
    }
}

/// Days on which a file is checked: those at the ends of its windows and beside them, and some drawn.
fn some_days(form: Form, file: &[u8]) -> HashSet<u16> {
    let contents = if form == Form::Old { old_contents(file) } else { new_contents(file) };
    let ends = contents.days.iter().flatten().flat_map(|&(first, last)| [first, last]);
    let near = ends.flat_map(|day| [day.wrapping_sub(1), day, day.wrapping_add(1)]).take(24);
    let mut random = SplitMix64::new(file.len() as u64);
    near.chain((0..6).map(|_| random.next_u64() as u16)).collect()
}

/// A file and its conversion have the same verdict on each day, and clauses of the same literal counts, maximum indices and bindings.
fn same_verdicts(name: &str, form: Form, file: &[u8], converted: &[u8], met: &mut Met) {
    let [mut ours, mut theirs] = [(); 2].map(|()| Cells::new());
    let mut verdicts = HashSet::new();
    for day in some_days(form, file) {
        let one = check_form_into(form, day, file, &mut ours.lend());
        let other = check_form_into(form.other(), day, converted, &mut theirs.lend());
        assert_eq!(one, other, "{name} on day {day}");
        verdicts.insert(one.verdict);
    }
    met.changing += usize::from(verdicts.len() > 1);
    let without_records = |cells: &Cells| -> Vec<Vec<u16>> {
        cells.clauses.chunks(5).map(|clause| clause[1..].to_vec()).collect()
    };
    assert!(without_records(&ours) == without_records(&theirs) && ours.bindings == theirs.bindings, "{name}");
}

/// Every stored file of the old form, from every group.
fn stored_files() -> Vec<(String, Vec<u8>)> {
    let mut all = Vec::new();
    all.extend(
        groups().into_iter().flat_map(|group| group.examples).map(|example| (example.name, example.file)),
    );
    all.extend(canonical::examples().into_iter().map(|example| (example.name, example.file)));
    all.extend(boards::examples().into_iter().map(|script| (script.name, script.file)));
    let pairs = merges::examples().into_iter().chain((0..60).map(random_pair));
    all.extend(pairs.flat_map(|pair| [(pair.name.clone(), pair.first), (pair.name, pair.second)]));
    all
}

#[test]
fn round_trips_on_all_stored_files() {
    let mut met = Met::default();
    for (name, file) in stored_files() {
        if matches!(check_form(Form::Old, 0, &file).verdict, Verdict::Refused { .. }) {
            continue;
        }
        round_trip(&name, Form::Old, &file, &mut met);
        if let Ok(new) = to_new(&file) {
            round_trip(&name, Form::New, &new, &mut met);
        }
    }
    for Formed { name, form, file, .. } in files() {
        if !matches!(check_form(form, 0, &file).verdict, Verdict::Refused { .. }) {
            round_trip(&name, form, &file, &mut met);
        }
    }
    assert!(met.converted.iter().all(|&converted| converted > 1200), "{met:?}");
    assert!(met.too_many.iter().all(|&refused| refused >= 3), "{met:?}");
    assert!(met.dated > 500 && met.superseded > 100 && met.changing > 200, "{met:?}");
}

#[test]
fn round_trips_on_random_files() {
    let mut met = Met::default();
    for form in Form::ALL {
        for seed in 0..4000 {
            let Formed { name, file, .. } = random_form(form, seed);
            if !matches!(check_form(form, 0, &file).verdict, Verdict::Refused { .. }) {
                round_trip(&name, form, &file, &mut met);
            }
        }
    }
    assert!(met.converted.iter().all(|&converted| converted > 2000), "{met:?}");
    assert!(met.too_many.iter().all(|&refused| refused >= 20), "{met:?}");
    assert!(met.dated > 3000 && met.superseded > 1000 && met.changing > 400, "{met:?}");
}

/// The functions that lend give what the others do.
#[test]
fn lent_and_owned_are_the_same() {
    for seed in 0..300 {
        let mut output = vec![0; FILE_BYTES];
        let Formed { file, .. } = random_form(Form::Old, seed);
        let length = to_new_into(&file, &mut Cells::new().lend(), &mut output).length();
        assert_eq!(length.map(|length| output[..length].to_vec()), to_new(&file).ok());
        let Formed { file, .. } = random_form(Form::New, seed);
        let length = to_old_into(&file, &mut Cells::new().lend(), &mut output).length();
        assert_eq!(length.map(|length| output[..length].to_vec()), to_old(&file).ok());
    }
}
