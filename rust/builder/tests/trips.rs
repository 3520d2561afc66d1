//! The stored examples are what the example program writes, and the pages say what they say.

mod pages;

use pages::{cells, hexadecimal, indented, section, stored, text};
use yestrwyn_second::board::Afresh;
use yestrwyn_types::record::{kind, read};
use yestrwyn_types::BoardAnswer;

#[path = "../examples/trips/archive.rs"]
mod archive;
#[path = "../examples/trips/covers.rs"]
mod covers;
#[path = "../examples/trips/curfew.rs"]
mod curfew;
#[path = "../examples/trips/declined.rs"]
mod declined;
#[path = "../examples/trips/duty.rs"]
mod duty;
#[path = "../examples/trips/files.rs"]
mod files;
#[path = "../examples/trips/permit.rs"]
mod permit;
#[path = "../examples/trips/rulebook.rs"]
mod rulebook;
#[path = "../examples/trips/season.rs"]
mod season;
#[path = "../examples/trips/sheets.rs"]
mod sheets;
#[path = "../examples/trips/trip.rs"]
mod trip;
#[path = "../examples/trips/two_steps.rs"]
mod two_steps;

/// The stored files by name.
fn files() -> Vec<files::Named> {
    files::files().expect("every file is built")
}

#[test]
fn stored_files_are_what_the_example_writes() {
    let advice = "write it anew with `cargo run -p yestrwyn-builder --example trips`";
    for files::Named { name, bytes: file, names } in files() {
        assert!(stored(&format!("examples/{name}.proof")) == file, "{name}.proof differs: {advice}");
        assert!(text(&format!("examples/{name}.names")) == names, "{name}.names differs: {advice}");
        let readout = yestrwyn_second::readout(0, &file);
        assert!(stored(&format!("examples/{name}.txt")) == readout, "{name}.txt differs: {advice}");
        for (_, day) in files::OTHER_DAYS.iter().filter(|(other, _)| *other == name) {
            let readout = yestrwyn_second::readout(*day, &file);
            assert!(stored(&format!("examples/{name}-{day}.txt")) == readout, "{name}-{day}.txt: {advice}");
        }
    }
}

/// The verdicts on some days that a section of the page tells are those of the check.
fn the_page_tells_the_days(name: &str, file: &[u8], days: &[u16]) {
    let page = text("examples/README.md");
    let told: Vec<(String, String)> = cells(section(&page, name))
        .filter_map(|(day, verdict)| Some((day.replace(',', "").parse::<u16>().ok()?, verdict)))
        .map(|(day, verdict)| (day.to_string(), verdict.to_string()))
        .collect();
    let verdict = |day: &u16| format!("`{}`", yestrwyn_second::check(*day, file).verdict);
    let right: Vec<(String, String)> = days.iter().map(|day| (day.to_string(), verdict(day))).collect();
    assert_eq!(told, right, "{name}");
}

#[test]
fn the_page_says_on_which_days_the_season_is() {
    let file = season::file().expect("the file is built").finish();
    let days = [0, 20_938, 20_939, 20_969, 20_970, 21_000, 21_091, 21_092, 21_122, 21_123];
    the_page_tells_the_days("season", &file, &days);
}

#[test]
fn the_quote_is_declined_on_its_day() {
    let (merged, file) = (declined::merged().expect("it is merged"), declined::file().expect("it is built"));
    the_page_tells_the_days("declined", &file, &[0, 20_939, 20_999, 21_000, 21_001]);
    // The merged file comes first, and what is added are steps alone.
    let added = file.strip_prefix(merged.as_slice()).expect("it begins with the merged file");
    assert!(added.chunks(16).all(|record| record[0] == kind::RESOLVE) && added.len() == 5 * 16);
}

#[test]
fn the_page_says_what_merging_gives() {
    let (page, files) = (text("examples/README.md"), files());
    let file = |name: &str| &files.iter().find(|other| other.name == name).expect(name).bytes;
    let merged = section(&page, "merged");
    let told: Vec<(&str, &str)> = cells(merged)
        .filter_map(|(two, numbers)| Some((two.split_once(" and ")?, numbers)))
        .filter(|((one, _), _)| files.iter().any(|file| file.name == *one))
        .map(|((one, other), numbers)| {
            let mut output = vec![0; 65_536];
            let mut cells = yestrwyn_types::Cells::new();
            let answer = yestrwyn_second::merge_into(file(one), file(other), &mut cells.lend(), &mut output);
            let right = answer.numbers().map(|number| number.to_string()).join(" ");
            assert_eq!(numbers, format!("`{right}`"), "{one} and {other}");
            (one, other)
        })
        .collect();
    assert_eq!(told.len(), 7, "{told:?}");
}

#[test]
fn the_page_says_what_trimming_gives() {
    let (page, files) = (text("examples/README.md"), files());
    let mut told = 0;
    for (what, numbers) in cells(section(&page, "archive")).filter(|row| row.1.starts_with('`')) {
        let Some((name, day)) = what.split_once(" on day ") else { continue };
        let day = day.parse().expect("a day");
        let file = &files.iter().find(|other| other.name == name).expect(name).bytes;
        let mut output = vec![0; 65_536];
        let mut cells = yestrwyn_types::Cells::new();
        let answer = yestrwyn_second::trim_into(day, file, &mut cells.lend(), &mut output);
        let right = answer.numbers().map(|number| number.to_string()).join(" ");
        assert_eq!(numbers, format!("`{right}`"), "{what}");
        told += 1;
    }
    assert_eq!(told, 6);
    // The archive is of 31 records, and the declined file of 35.
    assert_eq!(
        ["archive", "declined"].map(|name| stored(&format!("examples/{name}.proof")).len()),
        [31 * 16, 35 * 16]
    );
    assert!(text("examples/archive-21000.txt").starts_with("accepted 9\n"));
}

#[test]
fn the_page_shows_what_closes_up() {
    let page = text("examples/README.md");
    let [declined, archive] =
        ["declined", "archive"].map(|name| hexadecimal(&stored(&format!("examples/{name}.proof"))));
    let rows = rows_of_three(section(&page, "archive"));
    // Their records in the declined file, and in the archive where they are written there.
    let places = [
        (4, None),
        (16, None),
        (19, None),
        (20, Some(16)),
        (22, Some(18)),
        (24, Some(20)),
        (25, Some(21)),
        (34, Some(30)),
    ];
    assert_eq!(rows.len(), places.len());
    for (row, (record, moved)) in rows.iter().zip(places) {
        assert_eq!(row[1], declined[record]);
        match moved {
            Some(moved) => assert_eq!(row[2], archive[moved as usize]),
            None => assert!(row[2].starts_with("left out: ")),
        }
    }
}

#[test]
fn the_page_says_what_the_board_answers() {
    let (page, file) = (text("examples/README.md"), declined::file().expect("it is built"));
    let mut board = Afresh::open(21_000, &file).expect("it stands");
    let mut told = 0;
    let calls = cells(section(&page, "lifted")).filter(|(_, answer)| answer.starts_with('`'));
    for (call, answer) in calls {
        let right = match call.split_once(' ') {
            Some(("withdraw", clause)) => board.withdraw(clause.parse().expect("a clause")),
            Some(("return", clause)) => board.give_back(clause.parse().expect("a clause")),
            _ => BoardAnswer::Answered(board.answer()),
        };
        let numbers = right.numbers().map(|number| number.to_string()).join(" ");
        assert_eq!(answer, format!("`{numbers}`"), "{call}");
        told += 1;
    }
    assert_eq!(told, 10);
    // Clauses 6 to 10 use the curfew, and no clause but itself the rule on slots.
    let users =
        |input: u16| (0..=10).filter(|&clause| board.uses(clause).contains(&input)).collect::<Vec<u16>>();
    assert_eq!((users(1), users(2), users(5)), (vec![1, 6, 7, 8, 9, 10], vec![2], vec![5, 8, 10]));
    let other_day = Afresh::open(21_001, &file).expect("it stands");
    assert_eq!(other_day.answer(), None);
}

/// The rows of a section's tables that have three cells, of which the second is a record.
fn rows_of_three(page: &str) -> Vec<Vec<&str>> {
    page.lines()
        .map(|line| line.trim_matches('|').split(" | ").map(str::trim).collect::<Vec<_>>())
        .filter(|row| {
            row.len() == 3 && row[1].starts_with("`0") && row[1].len() == hexadecimal(&[0; 16])[0].len()
        })
        .collect()
}

#[test]
fn the_page_shows_what_is_raised() {
    let page = text("examples/README.md");
    let [trip, merged] =
        ["trip", "merged"].map(|name| hexadecimal(&stored(&format!("examples/{name}.proof"))));
    let rows = rows_of_three(section(&page, "merged"));
    // Their records in the trip, and in the merged file where they are written there.
    let places = [(4, None), (5, Some(17)), (7, Some(19)), (11, Some(23)), (12, Some(24)), (13, Some(25))];
    assert_eq!(rows.len(), places.len());
    for (row, (record, moved)) in rows.iter().zip(places) {
        assert_eq!(row[1], trip[record]);
        assert_eq!(
            row[2],
            moved.map_or("left out: the rulebook has it", |moved: usize| merged[moved].as_str())
        );
    }
}

#[test]
fn verdicts() {
    let lines: Vec<String> = files()
        .iter()
        .map(|file| text(&format!("examples/{}.txt", file.name)).lines().next().unwrap_or("").to_string())
        .collect();
    assert_eq!(
        lines,
        [
            "accepted 11",
            "accepted 15",
            "accepted 9",
            "accepted 3",
            "open",
            "open",
            "open",
            "open",
            "open",
            "open",
            "open",
            "refused 8 at 22",
            "accepted 4"
        ]
    );
}

#[test]
fn the_page_explains_every_line_of_every_readout() {
    let page = text("examples/README.md");
    for files::Named { name, .. } in files() {
        let explained: Vec<&str> = cells(section(&page, name))
            .filter_map(|row| row.0.strip_prefix('`')?.strip_suffix('`'))
            .collect();
        let readout = text(&format!("examples/{name}.txt"));
        assert_eq!(explained, readout.lines().collect::<Vec<_>>(), "{name}");
    }
}

#[test]
fn the_front_page_prints_the_first_readout() {
    assert!(text("README.md").contains(&format!("\n\n{}\n", indented(&text("examples/curfew.txt")))));
}

#[test]
fn duty_cannot_do_without_its_factor() {
    // A resolvent of clauses with two or more literals has two or more, so it is never empty.
    let file = duty::file().expect("the file is built").finish();
    let records = (0..).map_while(|number| read(&file, number));
    let (mut inputs, mut factors) = (0, 0);
    for record in records {
        inputs += u16::from(record.kind == kind::INPUT);
        factors += u16::from(record.kind == kind::FACTOR);
        assert!(record.kind != kind::INPUT || record.count >= 2);
    }
    assert_eq!((inputs, factors), (4, 1));
}

#[test]
fn sheets_cannot_do_without_a_factor_or_several_literals() {
    let file = sheets::file().expect("the file is built").finish();
    let records: Vec<_> = (0..).map_while(|number| read(&file, number)).collect();
    let of_kind = |wanted: u8| records.iter().filter(move |record| record.kind == wanted);
    assert!(of_kind(kind::INPUT).all(|record| record.count == 2));
    assert!(of_kind(kind::RESOLVE_SEVERAL).all(|record| record.count == 2));
    let counts =
        [kind::INPUT, kind::RESOLVE, kind::FACTOR, kind::RESOLVE_SEVERAL].map(|kind| of_kind(kind).count());
    assert_eq!(counts, [2, 0, 0, 2]);
}

#[test]
fn the_page_says_which_rule_covers_which() {
    let file = covers::file().expect("the file is built").finish();
    // Every two of the three rules, and a clause that is not there.
    let pairs = (0..3).flat_map(|c| (0..3).map(move |d| (c, d))).chain([(0, 3)]);
    let asked: Vec<(String, String)> = pairs
        .map(|(c, d)| {
            let numbers = yestrwyn_second::covers(&file, c, d).numbers().map(|number| number.to_string());
            (format!("clauses {c} and {d}"), format!("`{}`", numbers.join(" ")))
        })
        .collect();
    let page = text("examples/README.md");
    let told = cells(section(&page, "covers")).filter(|row| row.0.starts_with("clauses "));
    assert_eq!(told.map(|(two, numbers)| (two.into(), numbers.into())).collect::<Vec<_>>(), asked);
    // Of two different rules only the general curfew covers another.
    let yes = asked.iter().filter(|(_, numbers)| numbers.starts_with("`1 ")).map(|(two, _)| two.as_str());
    let covering = ["clauses 0 and 0", "clauses 0 and 1", "clauses 1 and 1", "clauses 2 and 2"];
    assert_eq!(yes.collect::<Vec<_>>(), covering);
}

#[test]
fn the_refused_file_has_one_slip() {
    let [right, wrong] = [duty::file(), duty::refused_file()].map(|file| file.expect("it is built").finish());
    let differing: Vec<usize> = (0..right.len()).filter(|&at| right[at] != wrong[at]).collect();
    assert_eq!(differing, [22 * 16 + 8]);
    assert!(section(&text("examples/README.md"), "refused").contains(&hexadecimal(&wrong)[22]));
}
