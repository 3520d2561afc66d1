//! Files trimmed to what their accepted clause uses: bytes and refusals by hand, what is left alone; and on all stored, random and
//! damaged files that the trimmed file is the one made slowly, is accepted with its last clause, reads out as before up to numbers,
//! has the same instances, and is trimmed to itself.

mod instances;
mod reference;
mod textbook;
mod trimming;

use instances::instances;
use reference::Reference;
use textbook::{unsatisfiable, Clause, Term};
use trimming::{closed, renumbered_line, Kept, Parts};
use yestrwyn_second::{check, check_into, trim, trim_into};
use yestrwyn_types::limits::FILE_BYTES;
use yestrwyn_types::{Form, Reason, Tables, TrimRefusal, Trimmed, Verdict, LENGTHS};
use yestrwyn_vectors::examples::{boards, canonical, merges, trims, Example};
use yestrwyn_vectors::forms::random_form;
use yestrwyn_vectors::outcome::{outcome_on, Outcome};
use yestrwyn_vectors::stored::groups;
use yestrwyn_vectors::trims::{damaged_trim, files, random_trim};

/// The file of a name.
fn named(name: &str) -> Example {
    trims::examples().into_iter().find(|file| file.name == name).unwrap_or_else(|| panic!("no file {name}"))
}

/// A record of some fields, all below 256.
fn record<const N: usize>(kind: u8, count: u8, fields: [u8; N]) -> Vec<u8> {
    let mut bytes = vec![kind, count];
    bytes.extend(fields.into_iter().flat_map(|field| [field, 0]));
    bytes.resize(16, 0);
    bytes
}

/// Every kind of record, each with something unused before it: the numbers of symbols, rows and clauses close up, and those of literals,
/// variables and days stay.
#[test]
fn by_hand() {
    let file = [
        record(1, 0, []),              // symbol 0 goes
        record(1, 2, []),              // symbol 1, p
        record(3, 0, [0]),             // row 0 goes
        record(2, 0, [40]),            // row 1, x
        record(2, 0, [40]),            // row 2, x again, goes
        record(2, 0, [41]),            // row 3, y
        record(3, 2, [1, 2, 3]),       // row 4, p(x,y)
        record(3, 2, [1, 1, 3]),       // row 5, p(x,y) again, goes
        record(4, 1, [1]),             // clause 0 goes
        record(4, 2, [11, 9]),         // clause 1, +p(x,y) +p(x,y)
        record(8, 0, [0, 3, 200]),     // days of clause 0 go
        record(8, 0, [1, 3, 4]),       // superseded days go
        record(4, 3, [10, 10, 8]),     // clause 2, -p(x,y) three times
        record(6, 0, [1, 2, 1]),       // clause 3, the factor of 1 that keeps its literal 2
        record(5, 0, [1, 2, 2, 3]),    // clause 4, unused, goes
        record(7, 2, [3, 1, 2, 2, 3]), // clause 5, of 3 and literals 2 and 3 of 2: -p(x,y)
        record(8, 0, [2, 5, 6]),       // days of clause 2
        record(5, 0, [3, 1, 5, 1]),    // clause 6, empty
        record(4, 1, [8]),             // clause 7 goes
        record(5, 0, [5, 1, 3, 1]),    // clause 8, empty too, goes
        record(8, 0, [1, 1, 250]),     // days of clause 1, after the last step
    ]
    .concat();
    let right = [
        record(1, 2, []),
        record(2, 0, [40]),
        record(2, 0, [41]),
        record(3, 2, [0, 0, 1]),
        record(4, 2, [5, 5]),
        record(4, 3, [4, 4, 4]),
        record(6, 0, [0, 2, 1]),
        record(7, 2, [2, 1, 1, 2, 3]),
        record(8, 0, [1, 5, 6]),
        record(5, 0, [2, 1, 3, 1]),
        record(8, 0, [0, 1, 250]),
    ]
    .concat();
    assert_eq!(check(5, &file).verdict, Verdict::Accepted(6));
    assert_eq!(trim(5, &file), Ok(right.clone()));
    assert_eq!(trim(6, &right), Ok(right));
    assert_eq!(trim(7, &file), Err(TrimRefusal { reason: Reason::NotAccepted, file: 1, record: 0 }));
}

/// Numbers above 255 close up too: the kept records stand behind thousands of others.
#[test]
fn thousands_of_records() {
    let length = |name: &str| {
        let Example { day, file, .. } = named(name);
        (file.len() / 16, trim(day, &file).map(|trimmed| trimmed.len() / 16))
    };
    assert_eq!(length("thousands-of-unused-rules"), (4017, Ok(57)));
    assert_eq!(length("thousands-of-unused-symbols"), (4096, Ok(6)));
    assert_eq!(length("thousands-of-superseded-days"), (4096, Ok(7)));
    assert_eq!(length("all-of-4096-records"), (4096, Ok(4096)));
    let Example { day, file, .. } = named("thousands-of-unused-symbols");
    let right = [
        record(1, 0, []),
        record(3, 0, [0]),
        record(4, 1, [1]),
        record(4, 1, [0]),
        record(5, 0, [0, 1, 1, 1]),
        vec![8, 0, 1, 0, 0x08, 0x52, 0x08, 0x52, 0, 0, 0, 0, 0, 0, 0, 0],
    ];
    assert_eq!(trim(day, &file), Ok(right.concat()));
}

/// What a trim is lent: tables of marks, each longer than it must be by some cells or shorter, and an output of marks.
#[derive(Clone, PartialEq)]
struct Lent {
    tables: [Vec<u16>; 4],
    output: Vec<u8>,
}

impl Lent {
    fn new(more: [isize; 4], output: usize) -> Lent {
        let mut lengths = LENGTHS.iter().zip(more);
        let tables = [(); 4].map(|()| {
            let (&length, more) = lengths.next().expect("four lengths");
            vec![0xabcd; length.saturating_add_signed(more)]
        });
        Lent { tables, output: (0..output).map(|place| place as u8 ^ 0x5a).collect() }
    }

    fn trim(&mut self, day: u16, file: &[u8]) -> Trimmed {
        let [symbols, rows, clauses, bindings] = &mut self.tables;
        trim_into(day, file, &mut Tables { symbols, rows, clauses, bindings }, &mut self.output)
    }

    fn check(&mut self, day: u16, file: &[u8]) -> Verdict {
        let [symbols, rows, clauses, bindings] = &mut self.tables;
        check_into(day, file, &mut Tables { symbols, rows, clauses, bindings }).verdict
    }
}

#[test]
fn a_short_output_touches_nothing() {
    let names = ["all-of-resolve", "23-no-record", "3-kind-9", "1-a-byte-too-many", "all-of-4096-records"];
    for Example { name, day, file } in names.map(named) {
        for length in [0, 1, 80, 65_535] {
            // A short table does not matter: the output comes before all else.
            for more in [[0; 4], [0, -1, 0, 0]] {
                let before = Lent::new(more, length);
                let mut lent = before.clone();
                assert_eq!(lent.trim(day, &file).numbers(), [2, 2, 0, 0], "{name}, {length} bytes");
                assert!(lent == before, "{name}, {length} bytes");
            }
        }
        assert_ne!(Lent::new([0; 4], 65_536).trim(day, &file).numbers(), [2, 2, 0, 0], "{name}");
    }
}

#[test]
fn short_tables_are_the_files_refusal() {
    for short in 0..4 {
        let more = [0, 1, 2, 3].map(|table| if table == short { -1 } else { 1 });
        let before = Lent::new(more, 65_536);
        let mut lent = before.clone();
        let Example { day, file, .. } = named("all-of-resolve");
        assert_eq!(lent.trim(day, &file).numbers(), [2, 2, 1, 0]);
        // The file's length comes first, and no record is looked at.
        assert_eq!(lent.trim(day, &file[..79]).numbers(), [2, 1, 1, 0]);
        assert_eq!(lent.trim(day, &[0; 80]).numbers(), [2, 2, 1, 0]);
        assert!(lent == before);
    }
}

/// Named, random and damaged files.
fn all_files() -> impl Iterator<Item = Example> {
    files().into_iter().chain((1000..2500).flat_map(|seed| [random_trim(seed), damaged_trim(seed)]))
}

#[test]
fn tables_and_output_are_left_alone_where_they_must_be() {
    let (mut written, mut refused, mut open) = (0, 0, 0);
    for (Example { name, day, file }, more) in all_files().zip([0, 1, 3].into_iter().cycle()) {
        let mut lent = Lent::new([more as isize; 4], FILE_BYTES + more);
        let mut checked = lent.clone();
        let trimmed = lent.trim(day, &file);
        let verdict = checked.check(day, &file);
        assert!(lent.tables == checked.tables, "{name}");
        let length = trimmed.length().unwrap_or(0);
        assert!(lent.output[length..] == checked.output[length..], "{name}");
        match verdict {
            Verdict::Accepted(_) => {
                assert_eq!(trim(day, &file).as_deref(), Ok(&lent.output[..length]), "{name}");
                written += 1;
            }
            Verdict::Open => {
                assert_eq!(trimmed.numbers(), [2, 23, 1, 0], "{name}");
                open += 1;
            }
            Verdict::Refused { reason, record } => {
                assert_eq!(trimmed, Trimmed::Refused(TrimRefusal { reason, file: 1, record }), "{name}");
                refused += 1;
            }
        }
    }
    assert!(written > 800 && open > 100 && refused > 800, "{written}, {open} and {refused}");
}

/// What the trims have met.
#[derive(Default, Debug)]
struct Met {
    trimmed: usize,
    /// With fewer symbols, rows, clauses and records of days than before.
    fewer: [usize; 4],
    /// Whose instances could be written out.
    instances: usize,
}

/// All that is promised of one file that is accepted.
fn hold(day: u16, name: &str, file: &[u8], met: &mut Met) {
    let Verdict::Accepted(empty) = check(day, file).verdict else { return };
    let trimmed = trim(day, file).unwrap_or_else(|refusal| panic!("{name}: {refusal}"));
    let parts = Parts::of(file);
    let kept = parts.used_by(usize::from(empty));
    assert!(trimmed == parts.trimmed(&kept), "{name}");
    let [before, after] = [file, &trimmed].map(|file| outcome_on(day, file));
    let last = after.answer.clauses - 1;
    assert_eq!(after.answer.verdict, Verdict::Accepted(last), "{name}");
    assert_eq!(usize::from(last), closed(&kept.clauses, usize::from(empty)), "{name}");
    same_clauses(name, &before, &after, &kept);
    assert_eq!(trim(day, &trimmed).as_ref(), Ok(&trimmed), "{name}");
    met.trimmed += 1;
    let days = |file: &[u8]| file.iter().step_by(16).filter(|&&kind| kind == 8).count() as u16;
    let counts = |outcome: &Outcome, file: &[u8]| {
        [outcome.answer.symbols, outcome.answer.rows, outcome.answer.clauses, days(file)]
    };
    let lists = counts(&before, file).into_iter().zip(counts(&after, &trimmed));
    for (fewer, (old, new)) in met.fewer.iter_mut().zip(lists) {
        assert!(new <= old, "{name}");
        *fewer += usize::from(new < old);
    }
}

/// Each kept clause has as many literals, the same maximum index and the same bindings, rows renumbered; and its line is as before but for
/// its number and those of symbols.
fn same_clauses(name: &str, before: &Outcome, after: &Outcome, kept: &Kept) {
    let [old_text, new_text] = [before, after].map(|outcome| String::from_utf8_lossy(&outcome.readout));
    let [old_lines, new_lines] = [&old_text, &new_text].map(|text| text.lines().collect::<Vec<&str>>());
    assert_eq!(new_lines.len(), 1 + kept.clauses.len(), "{name}");
    for (new, &old) in kept.clauses.iter().enumerate() {
        let [old_cells, new_cells] = [(before, old), (after, new)]
            .map(|(outcome, clause)| &outcome.cells.clauses[5 * clause..5 * clause + 5]);
        assert_eq!([old_cells[1], old_cells[2], old_cells[4]], [new_cells[1], new_cells[2], new_cells[4]]);
        let [old_bindings, new_bindings] =
            [(before, old_cells), (after, new_cells)].map(|(outcome, cells)| {
                let [first, count] = [cells[3], cells[4]].map(usize::from);
                &outcome.cells.bindings[4 * first..4 * (first + count)]
            });
        for (place, (&old, &new)) in old_bindings.iter().zip(new_bindings).enumerate() {
            let right = if place % 2 == 0 { closed(&kept.rows, old.into()) } else { old.into() };
            assert_eq!(usize::from(new), right, "binding of clause {new} of {name}");
        }
        let rest = old_lines[1 + old].split_once(' ').expect("a clause's number").1;
        let right = format!("{new} {}", renumbered_line(rest, &kept.symbols));
        assert_eq!(new_lines[1 + new], right, "{name}");
    }
}

/// A term with symbols renumbered.
fn renumbered(term: &Term, kept: &Kept) -> Term {
    match term {
        Term::Apply(symbol, arguments) => {
            let inner = arguments.iter().map(|argument| renumbered(argument, kept)).collect();
            Term::Apply(closed(&kept.symbols, usize::from(*symbol)) as u16, inner)
        }
        other => other.clone(),
    }
}

/// The instances that cannot all be true are the same, up to the numbers of symbols, and so are the uses, up to the numbers of clauses.
fn same_instances(day: u16, name: &str, file: &[u8], met: &mut Met) {
    let Ok(trimmed) = trim(day, file) else { return };
    let [before, after] = [file, &trimmed].map(Reference::check);
    let [old, new] = [&before, &after].map(|state| state.accepted(day).expect(name));
    let kept = Parts::of(file).used_by(old);
    let uses: Vec<usize> = before.uses(old).iter().map(|&used| closed(&kept.clauses, used)).collect();
    assert_eq!(after.uses(new), uses, "{name}");
    assert!(uses.iter().all(|&used| after.in_force(used, day)), "{name}");
    let (Some(ours), Some(theirs)) = (instances(&after, new, 20_000), instances(&before, old, 20_000)) else {
        return;
    };
    let renumbered_clause =
        |clause: &Clause| clause.iter().map(|(sign, atom)| (*sign, renumbered(atom, &kept))).collect();
    let theirs: Vec<Clause> = theirs.iter().map(renumbered_clause).collect();
    assert_eq!(ours, theirs, "{name}");
    assert!(unsatisfiable(&ours), "{name}");
    met.instances += 1;
}

/// Every stored file of the old form, from every group, with its day.
fn stored_files() -> Vec<Example> {
    let mut all: Vec<Example> = groups().into_iter().flat_map(|group| group.examples).collect();
    all.extend(canonical::examples());
    all.extend(boards::examples().into_iter().map(|script| Example {
        name: script.name,
        day: script.day,
        file: script.file,
    }));
    let pairs = merges::examples().into_iter();
    all.extend(
        pairs.flat_map(|pair| [Example::new(&pair.name, pair.first), Example::new(&pair.name, pair.second)]),
    );
    all.extend(files());
    all
}

#[test]
fn all_stored_files() {
    let mut met = Met::default();
    for Example { name, day, file } in stored_files() {
        hold(day, &name, &file, &mut met);
    }
    assert!(met.trimmed > 500, "{met:?}");
    assert!(met.fewer.iter().all(|&fewer| fewer > 50), "{met:?}");
}

#[test]
fn random_files() {
    let mut met = Met::default();
    for seed in 0..3000 {
        let Example { name, day, file } = random_trim(seed);
        hold(day, &name, &file, &mut met);
        if seed % 4 == 0 && file.len() < 16 * 300 {
            same_instances(day, &name, &file, &mut met);
        }
        let formed = random_form(Form::Old, seed);
        hold(formed.day, &formed.name, &formed.file, &mut met);
    }
    assert!(met.trimmed > 2000 && met.instances > 300, "{met:?}");
    assert!(met.fewer.iter().all(|&fewer| fewer > 1000), "{met:?}");
}

#[test]
fn instances_of_named_files() {
    let mut met = Met::default();
    let short = trims::examples().into_iter().filter(|example| example.file.len() <= 16 * 120);
    for Example { name, day, file } in short {
        same_instances(day, &name, &file, &mut met);
    }
    assert!(met.instances > 35, "{met:?}");
}

/// Days of the trimmed file are those that superseded: it is accepted on each day on which its clause was in force.
#[test]
fn on_every_day_of_the_accepted_clause() {
    let (mut same, mut days) = (0, 0);
    for seed in 0..600 {
        let Example { name, day, file } = random_trim(seed);
        let (Verdict::Accepted(empty), Ok(trimmed)) = (check(day, &file).verdict, trim(day, &file)) else {
            continue;
        };
        let last = check(day, &trimmed).verdict;
        for other in [day.wrapping_sub(2), day.wrapping_sub(1), day.wrapping_add(1), day.wrapping_add(2)] {
            if check(other, &file).verdict == Verdict::Accepted(empty) {
                assert_eq!(check(other, &trimmed).verdict, last, "{name} on {other}");
                assert_eq!(trim(other, &trimmed), trim(day, &trimmed), "{name} on {other}");
                same += 1;
            }
            days += 1;
        }
    }
    assert!(same > 500 && same < days, "{same} of {days}");
}
