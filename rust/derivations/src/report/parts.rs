//! Parts of a page. What is put into one from outside is escaped here, or marked as done.

use crate::escape::escaped;
use crate::model::{Model, Origin};
use crate::names::Names;
use crate::rules::used_rules;
use crate::text::Printer;
use crate::wording::{days_of, grouped, times};

/// Steps that a page lists at most.
const STEPS: usize = 500;

/// A heading.
pub fn heading(text: &str) -> String {
    format!("<h2>{}</h2>\n", escaped(text))
}

/// A paragraph, in which what stands between backquotes is code.
pub fn paragraph(text: &str) -> String {
    let parts = text.split('`').enumerate().map(|(at, part)| match at % 2 {
        1 => format!("<code>{}</code>", escaped(part)),
        _ => escaped(part),
    });
    format!("<p>{}</p>\n", parts.collect::<String>())
}

/// A line of a list of terms. What it says has its marks already.
pub fn entry(term: &str, marked: &str) -> String {
    format!("<dt>{}</dt><dd>{marked}</dd>\n", escaped(term))
}

/// The rules and facts that a clause uses.
pub fn rules(model: &Model<'_>, names: &Names, clause: u16) -> String {
    let mut text = String::from("<ul class=\"clauses rules\">\n");
    for rule in used_rules(model, clause) {
        let days = days_of(model.clause(rule.clause).and_then(|clause| clause.days.as_ref()));
        let said = format!("used {}, {days} (record {})", times(rule.times), rule.record);
        text += &card(model, names, rule.clause, &said);
    }
    text + "</ul>\n"
}

/// The steps that lead to a clause.
pub fn steps(model: &Model<'_>, names: &Names, clause: u16) -> String {
    let derivation = model.derivation(clause);
    let derived: Vec<u16> = derivation
        .into_iter()
        .filter(|&number| model.clause(number).is_some_and(|at| !at.is_input()))
        .collect();
    let mut text = String::from("<ul class=\"clauses\">\n");
    for &number in derived.iter().take(STEPS) {
        let said = model.clause(number).map_or_else(String::new, |clause| made_of(&clause.origin));
        text += &card(model, names, number, &said);
    }
    text += "</ul>\n";
    match derived.len().saturating_sub(STEPS) {
        0 => text,
        more => {
            let said = format!(
                "{} further steps are not listed: `yestrwyn readout` has every clause.",
                grouped(more)
            );
            text + &paragraph(&said)
        }
    }
}

/// A clause with what is said of it, and a line for each literal.
fn card(model: &Model<'_>, names: &Names, clause: u16, said: &str) -> String {
    let literals = Printer::new(model, names).literals(clause);
    let lines: String = literals.iter().map(|literal| format!("<div>{}</div>", escaped(literal))).collect();
    let lines = if literals.is_empty() { "<div>no literal is left</div>".to_string() } else { lines };
    format!("<li><p><b>clause {clause}</b>, {}</p>{lines}</li>\n", escaped(said))
}

/// What a clause is made of.
fn made_of(origin: &Origin) -> String {
    match origin {
        Origin::Input => String::new(),
        Origin::Factor { parent, kept, deleted } => {
            format!("from clause {parent}, of which literals {kept} and {deleted} become one")
        }
        Origin::Resolve { left, left_literal, right, right_literals } => {
            let numbers: Vec<String> = right_literals.iter().map(u16::to_string).collect();
            let word = if numbers.len() == 1 { "literal" } else { "literals" };
            format!(
                "from clause {left}, literal {left_literal}, and clause {right}, {word} {}",
                numbers.join(", ")
            )
        }
    }
}
