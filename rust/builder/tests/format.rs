//! The guide to the format agrees with the stored examples and with the limits.

mod pages;

use pages::{cells, hexadecimal, hexadecimal_line, indented, section, stored, text};
use yestrwyn_second::to_new;
use yestrwyn_types::limits::{
    ARITY, BINDINGS, BINDING_CELLS, CLAUSE_CELLS, INDEX, INPUT_LITERALS, LITERALS, OUTLINE_PAIRS,
    READOUT_OCCURRENCES, RIGHT_LITERALS, ROW_CELLS, SYMBOL_CELLS, VARIABLES, WORK,
};
use yestrwyn_types::{Form, Reason};

/// A number with a comma before its last three digits, if it has more.
fn written(number: usize) -> String {
    match number {
        0..=999 => number.to_string(),
        _ => format!("{},{:03}", number / 1000, number % 1000),
    }
}

#[test]
fn the_worked_example_is_the_stored_file() {
    let guide = text("docs/FORMAT.md");
    let told: Vec<(&str, &str)> =
        cells(section(&guide, "A worked example")).filter(|row| row.1.starts_with('`')).collect();
    let permit = hexadecimal(&stored("examples/permit.proof"));
    let [duty, sheets] =
        ["duty", "sheets"].map(|name| hexadecimal(&stored(&format!("examples/{name}.proof"))));
    let numbers: Vec<String> = (0..permit.len()).map(|number| number.to_string()).collect();
    let mut right: Vec<(&str, &str)> =
        numbers.iter().zip(&permit).map(|(number, bytes)| (number.as_str(), bytes.as_str())).collect();
    right.extend([("25", duty[25].as_str()), ("8", &sheets[8])]);
    assert_eq!(told, right);
}

#[test]
fn the_days_are_those_of_the_stored_file() {
    let guide = text("docs/FORMAT.md");
    let told: Vec<(&str, &str)> =
        cells(section(&guide, "Rules in force")).filter(|row| row.1.starts_with('`')).collect();
    let season = hexadecimal(&stored("examples/season.proof"));
    let of_days = season.iter().enumerate().filter(|(_, bytes)| bytes.starts_with("`08"));
    let right: Vec<(String, &str)> =
        of_days.map(|(number, bytes)| (number.to_string(), bytes.as_str())).collect();
    assert_eq!(told.iter().map(|&(number, bytes)| (number.to_string(), bytes)).collect::<Vec<_>>(), right);
}

#[test]
fn the_new_form_is_that_of_the_stored_file() {
    let guide = text("docs/FORMAT.md");
    let told: Vec<(&str, &str)> =
        cells(section(&guide, "Days beside the clause")).filter(|row| row.1.starts_with('`')).collect();
    let season = to_new(&stored("examples/season.proof")).expect("it is written");
    let lines: Vec<String> = season.chunks(20).map(hexadecimal_line).collect();
    assert_eq!(told, [("16", lines[16].as_str()), ("18", &lines[18])]);
}

#[test]
fn the_readout_of_the_worked_example_is_quoted() {
    let quoted = indented(&text("examples/permit.txt"));
    assert!(section(&text("docs/FORMAT.md"), "Verdict and readout").contains(&quoted));
}

#[test]
fn every_refusal_has_its_line() {
    let guide = text("docs/FORMAT.md");
    let numbers: Vec<&str> = cells(section(&guide, "Refusals")).map(|row| row.0).skip(1).collect();
    // Those of the reasons that have a name.
    let named = (0..=u16::MAX).filter(|&number| !matches!(Reason::from_number(number), Reason::Other(_)));
    assert_eq!(numbers, named.map(|number| number.to_string()).collect::<Vec<_>>());
}

#[test]
fn the_limits_are_those_of_the_check() {
    let guide = text("docs/FORMAT.md");
    let told: Vec<&str> = cells(section(&guide, "Limits")).map(|row| row.1).skip(1).collect();
    let length =
        |form: Form| format!("{} bytes, {} records", written(form.file_bytes()), written(form.records()));
    let others = [
        usize::from(ARITY),
        VARIABLES - 1,
        usize::from(INPUT_LITERALS),
        usize::from(RIGHT_LITERALS),
        usize::from(LITERALS),
        usize::from(INDEX),
        OUTLINE_PAIRS,
        WORK as usize,
        BINDINGS,
        READOUT_OCCURRENCES,
    ];
    let right: Vec<String> = Form::ALL.map(length).into_iter().chain(others.map(written)).collect();
    assert_eq!(told, right);
}

#[test]
fn the_tables_are_those_of_the_check() {
    let guide = text("docs/FORMAT.md");
    let told: Vec<&str> =
        cells(section(&guide, "Calling the library")).map(|row| row.1).skip(1).take(4).collect();
    assert_eq!(told, [SYMBOL_CELLS, ROW_CELLS, CLAUSE_CELLS, BINDING_CELLS].map(written));
}
