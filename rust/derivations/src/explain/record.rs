//! A record in words: where it stands, its bytes, and what each field means.

use yestrwyn_types::record::{kind, Record};
use yestrwyn_types::{date, Form};

use crate::fault::used_fields;
use crate::model::Model;
use crate::names::Names;
use crate::text::Printer;
use crate::values::Values;
use crate::wording::grouped;

/// The letters of the seven fields.
pub const LETTERS: [char; 7] = ['a', 'b', 'c', 'd', 'e', 'f', 'g'];

/// A record that does not stand, in words.
pub fn describe(model: &Model<'_>, names: &Names, number: u16) -> String {
    let bytes = model.form().part(model.file(), number);
    let start = usize::from(number) * model.form().record_bytes();
    let Some(dated) = model.record(number) else { return String::new() };
    let mut text =
        format!("record {number}, bytes {start} to {} of the file:\n", start + bytes.len().saturating_sub(1));
    let digits: Vec<String> = bytes.iter().map(|byte| format!("{byte:02x}")).collect();
    text += &format!("  {}\n", digits.join(" "));
    text += &format!("  kind {}: {}\n", dated.record.kind, meaning(model, dated.record.kind));
    text += &format!("  byte 1 = {}{}\n", dated.record.count, count_meaning(dated.record.kind));
    let printer = Printer::new(model, names);
    for (field, value) in (0..).zip(dated.record.fields) {
        text += &field_line(model, printer, &dated.record, field, value);
    }
    if model.form() == Form::New {
        text += &format!("  days beside it = {} and {}\n", dated.days[0], dated.days[1]);
    }
    text
}

/// What a kind is, and what its record would have made.
fn meaning(model: &Model<'_>, of: u8) -> String {
    let [symbols, rows, clauses] =
        [model.symbols().len(), model.rows().len(), model.clauses().len()].map(grouped);
    match of {
        kind::SYMBOL => format!("a symbol, which would be symbol {symbols}"),
        kind::VARIABLE => format!("a variable, which would be row {rows}"),
        kind::APPLICATION => format!("a symbol applied to arguments, which would be row {rows}"),
        kind::INPUT => format!("an input clause, which would be clause {clauses}"),
        kind::RESOLVE => format!("a resolution step, which would make clause {clauses}"),
        kind::FACTOR => format!("a factoring step, which would make clause {clauses}"),
        kind::RESOLVE_SEVERAL => {
            format!("a resolution step on several right literals, which would make clause {clauses}")
        }
        kind::WINDOW => "the days of an input clause".to_string(),
        _ => "there is no such kind".to_string(),
    }
}

/// What byte 1 counts.
fn count_meaning(of: u8) -> &'static str {
    match of {
        kind::SYMBOL | kind::APPLICATION => ": how many arguments",
        kind::INPUT => ": how many literals",
        kind::RESOLVE_SEVERAL => ": how many right literals",
        _ => "",
    }
}

/// The line of a field: what it names. Fields that are not used and zero have none.
fn field_line(model: &Model<'_>, printer: Printer<'_>, record: &Record, field: usize, value: u16) -> String {
    let is_known = (kind::SYMBOL..=kind::WINDOW).contains(&record.kind);
    let is_used = is_known && field < used_fields(record.kind, record.count.into());
    if !is_used && value == 0 {
        return String::new();
    }
    let said = match is_used {
        true => Field { model, printer, fields: &record.fields, value }.said(record.kind, field),
        false => "not used".to_string(),
    };
    format!("  {} = {value}: {said}\n", LETTERS[field])
}

/// A field that is used, with what it may name.
struct Field<'a> {
    model: &'a Model<'a>,
    printer: Printer<'a>,
    fields: &'a [u16; 7],
    value: u16,
}

impl Field<'_> {
    /// What the field is.
    fn said(&self, of: u8, field: usize) -> String {
        let [left, _, right, ..] = *self.fields;
        match (of, field) {
            (kind::VARIABLE, _) => "the number of the variable".to_string(),
            (kind::APPLICATION, 0) => format!("the symbol {}", self.printer.names().symbol(self.value)),
            (kind::APPLICATION, _) => format!("argument {field}, row {}", self.row(self.value)),
            (kind::INPUT, _) => self.input_literal(),
            (kind::FACTOR, 0) => format!("the clause {}", self.clause()),
            (kind::FACTOR, 1) => format!("the literal kept{}", self.literal(left)),
            (kind::FACTOR, _) => format!("the literal deleted{}", self.literal(left)),
            (kind::RESOLVE | kind::RESOLVE_SEVERAL, 0) => format!("the left clause {}", self.clause()),
            (kind::RESOLVE | kind::RESOLVE_SEVERAL, 1) => format!("the left literal{}", self.literal(left)),
            (kind::RESOLVE | kind::RESOLVE_SEVERAL, 2) => format!("the right clause {}", self.clause()),
            (kind::RESOLVE | kind::RESOLVE_SEVERAL, _) => format!("a right literal{}", self.literal(right)),
            (kind::WINDOW, 0) => format!("the input clause {}", self.clause()),
            (kind::WINDOW, 1) => format!("the first day, {}", date(self.value)),
            _ => format!("the last day, {}", date(self.value)),
        }
    }

    /// A row by its number and its term.
    fn row(&self, row: u16) -> String {
        match usize::from(row) < self.model.rows().len() {
            true => format!("{row}: {}", self.printer.row(row)),
            false => format!("{row}, which does not exist"),
        }
    }

    /// A literal of an input clause.
    fn input_literal(&self) -> String {
        let sign = if self.value % 2 == 1 { "positive" } else { "negative" };
        format!("a {sign} literal on row {}", self.row(self.value / 2))
    }

    /// The clause that the field names.
    fn clause(&self) -> String {
        match self.model.clause(self.value) {
            Some(_) => format!("{}: {}", self.value, self.printer.beginning(self.value)),
            None => format!("{}, which does not exist", self.value),
        }
    }

    /// The literal that the field names, of a clause.
    fn literal(&self, clause: u16) -> String {
        match self.model.literal(clause, self.value) {
            Some(literal) => {
                let mut values = Values::of_clause(self.model, clause);
                format!(": {}", self.printer.shortened(&mut values, literal))
            }
            None => ", which does not exist".to_string(),
        }
    }
}
