//! The check of files of either form: reasons and their order, days beside the clause, lengths, and the whole check against the
//! slow reference.

mod reference;

use reference::Reference;
use yestrwyn_second::{check, check_form, check_form_into, check_into};
use yestrwyn_types::{Answer, Cells, Form, Reason, Tables, Verdict, LENGTHS};
use yestrwyn_vectors::examples::forms::{examples, Formed};
use yestrwyn_vectors::forms::{damaged_form, random_form};
use yestrwyn_vectors::stored::groups;
use yestrwyn_vectors::widened;

/// The file of a name.
fn named(name: &str) -> Formed {
    examples().into_iter().find(|file| file.name == name).unwrap_or_else(|| panic!("no file {name}"))
}

/// The verdict on a named file.
fn verdict(name: &str) -> Verdict {
    let Formed { form, day, file, .. } = named(name);
    check_form(form, day, &file).verdict
}

/// A file whose name begins with a number up to 16 is refused with it; all others stand.
#[test]
fn names_say_what_is_given() {
    let (mut refused, mut standing) = (0, 0);
    for Formed { name, form, day, file } in examples() {
        let word = name.split('-').next().unwrap_or("");
        let number = word.parse::<u16>().ok().filter(|&number| number <= 16);
        match check_form(form, day, &file).verdict {
            Verdict::Refused { reason, .. } => {
                assert_eq!(Some(reason.number()), number, "{name}");
                refused += 1;
            }
            _ => {
                assert_eq!(number, None, "{name}");
                standing += 1;
            }
        }
    }
    assert!(refused > 90 && standing > 140, "{refused} refused, {standing} stand");
}

#[test]
fn each_kind_with_a_bad_filler() {
    for kind in ["symbol", "variable", "application", "resolve", "factor", "several"] {
        assert!(!matches!(verdict(&format!("stands-{kind}")), Verdict::Refused { .. }), "{kind}");
        for what in ["byte-16", "byte-17", "byte-18", "byte-19", "always", "crossed"] {
            let right = Verdict::Refused { reason: Reason::Range, record: 8 };
            assert_eq!(verdict(&format!("4-{kind}-{what}")), right, "{kind}, {what}");
        }
    }
}

#[test]
fn the_order_of_an_input_clause() {
    let refused = |name: &str| match verdict(name) {
        Verdict::Refused { reason, record } => (reason.number(), record),
        verdict => panic!("{name}: {verdict}"),
    };
    assert_eq!(refused("4-before-16-count"), (4, 8));
    assert_eq!(refused("4-before-16-unused-field"), (4, 8));
    assert_eq!(refused("5-before-16"), (5, 8));
    assert_eq!(refused("5-before-16-and-7"), (5, 8));
    assert_eq!(refused("16-before-7"), (16, 8));
    assert_eq!(refused("16-before-7-second-literal"), (16, 8));
    assert_eq!(refused("7-days-in-order"), (7, 8));
    assert_eq!(refused("3-kind-8-zeros"), (3, 8));
    assert_eq!(refused("3-kind-8-days"), (3, 8));
}

#[test]
fn days_beside_a_clause() {
    let days = [("10-to-20", 9), ("10-to-20", 10), ("10-to-20", 20), ("10-to-20", 21), ("255-to-256", 1)];
    let verdicts = days.map(|(name, day)| verdict(&format!("new-{name}-on-{day}")).to_string());
    assert_eq!(verdicts, ["open", "accepted 2", "accepted 2", "open", "open"]);
    for day in [0, 32_768, 65_535] {
        assert_eq!(verdict(&format!("new-0-to-65535-on-{day}")), Verdict::Accepted(2));
    }
}

#[test]
fn lengths_of_the_new_form() {
    for length in (0..=200).chain(65_400..=65_700).chain([131_040, 1 << 20]) {
        // Zeros have kind 0, which the first record is refused for.
        let reason = match length {
            0 => None,
            _ if length <= 65_520 && length % 20 == 0 => Some(Reason::Kind),
            _ => Some(Reason::Length),
        };
        let right = reason.map_or(Verdict::Open, |reason| Verdict::Refused { reason, record: 0 });
        assert_eq!(check_form(Form::New, 0, &vec![0; length]).verdict, right, "{length} bytes");
    }
    let counts = |name: &str| check_form(Form::New, 0, &named(name).file).numbers();
    assert_eq!(counts("stands-65520-bytes"), [0, 0, 0, 3276, 0, 0, 0]);
    assert_eq!(counts("1-65540-bytes"), [2, 1, 0, 0, 0, 0, 0]);
}

/// 1 comes before 2, and with both the tables are untouched; cells past the least lengths are left alone.
#[test]
fn tables_that_are_lent() {
    for short in 0..4 {
        let mut tables = LENGTHS.map(|length| vec![7; length]);
        tables[short].pop();
        let [symbols, rows, clauses, bindings] = &mut tables;
        let mut lent = Tables { symbols, rows, clauses, bindings };
        let whole = Answer::refused_whole;
        let file = named("new-10-to-20-on-10").file;
        assert_eq!(check_form_into(Form::New, 0, &file, &mut lent), whole(Reason::Table));
        assert_eq!(check_form_into(Form::New, 0, &file[1..], &mut lent), whole(Reason::Length));
        assert!(tables.iter().flatten().all(|&cell| cell == 7));
    }
    for seed in 0..100 {
        let Formed { day, file, .. } = random_form(Form::New, seed);
        let mut tables = LENGTHS.map(|length| vec![7; length + 3]);
        let [symbols, rows, clauses, bindings] = &mut tables;
        let answer = check_form_into(Form::New, day, &file, &mut Tables { symbols, rows, clauses, bindings });
        let mut cells = Cells::new();
        assert_eq!(check_form_into(Form::New, day, &file, &mut cells.lend()), answer);
        for (table, right) in tables.iter().zip([cells.symbols, cells.rows, cells.clauses, cells.bindings]) {
            assert!(table[..right.len()] == right && table[right.len()..] == [7; 3], "seed {seed}");
        }
    }
}

/// Told that a file is old, the check is the one that is told nothing.
#[test]
fn the_old_form_is_checked_as_before() {
    for example in groups().into_iter().flat_map(|group| group.examples) {
        let [mut ours, mut theirs] = [(); 2].map(|()| Cells::new());
        let answer = check_form_into(Form::Old, example.day, &example.file, &mut ours.lend());
        assert_eq!(answer, check_into(example.day, &example.file, &mut theirs.lend()), "{}", example.name);
        assert!(ours == theirs, "{}", example.name);
        assert_eq!(check(example.day, &example.file), answer);
    }
}

/// Answer and all cells agree with the reference on some days.
fn agree(name: &str, days: &[u16], file: &[u8]) {
    let theirs = Reference::check_new(file);
    for &day in days {
        let mut cells = Cells::new();
        let ours = check_form_into(Form::New, day, file, &mut cells.lend());
        assert_eq!(ours.numbers(), theirs.answer_on(day), "answer of {name} on day {day}");
        let Cells { symbols, rows, clauses, bindings } = cells;
        for (cells, used) in [symbols, rows, clauses, bindings].into_iter().zip(theirs.tables()) {
            assert_eq!(cells[..used.len()], used, "table of {name}");
            assert!(cells[used.len()..].iter().all(|&cell| cell == 0), "rest of a table of {name}");
        }
    }
}

#[test]
fn named_files_against_the_reference() {
    let compare = || {
        for Formed { name, day, file, form } in examples() {
            let file = if form == Form::New { file } else { widened(&file) };
            agree(&name, &[0, day, 65_535], &file);
        }
    };
    let walk = std::thread::Builder::new().stack_size(1 << 26).spawn(compare).expect("a thread");
    walk.join().expect("agreement");
}

#[test]
fn random_files_against_the_reference() {
    let (mut accepted, mut refused) = (0, 0);
    for seed in 0..4000 {
        let Formed { name, day, file, .. } = random_form(Form::New, seed);
        // Files of thousands of clauses take the reference long.
        if file.len() < 30_000 {
            agree(&name, &[day.wrapping_sub(1), day, day.wrapping_add(1)], &file);
        }
        let verdict = check_form(Form::New, day, &file).verdict;
        accepted += usize::from(verdict.is_accepted());
        refused += usize::from(matches!(verdict, Verdict::Refused { .. }));
        let Formed { name, day, file, .. } = damaged_form(Form::New, seed);
        if file.len() < 30_000 {
            agree(&name, &[day], &file);
        }
    }
    assert!(accepted > 600 && refused > 600, "{accepted} accepted, {refused} refused");
}
