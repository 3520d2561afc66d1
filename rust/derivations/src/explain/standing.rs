//! What is to be said of a file that stands: why it is accepted, or what is missing.

use crate::model::Model;
use crate::names::Names;
use crate::text::Printer;
use crate::wording::{checked_on, counted, days_of, grouped, wrapped};

/// Clauses that are listed at most.
const LISTED: usize = 5;

/// An accepted file.
pub fn accepted(model: &Model<'_>, day: Option<u16>, clause: u16) -> String {
    let used = model.use_counts(clause);
    let uses = used.iter().map(|&(_, count)| count).sum();
    wrapped(
        0,
        &format!(
            "Every record stands. Clause {clause} is the first without literals that is made only of rules in force on {}: {} of {}, \
             which cannot all be true. `yestrwyn rules` lists them.",
            checked_on(day),
            counted(uses, "use"),
            counted(used.len(), "input clause"),
        ),
    )
}

/// An open file.
pub fn open(model: &Model<'_>, names: &Names, day: Option<u16>) -> String {
    let empty: Vec<u16> = numbers(model).filter(|&clause| literals(model, clause) == 0).collect();
    let mut text = wrapped(0, &format!("Every record stands, and nothing is shown for {}.", checked_on(day)));
    if empty.is_empty() {
        return text + &shortest(model, names);
    }
    for &clause in empty.iter().take(LISTED) {
        text += &wrapped(
            0,
            &format!("Clause {clause} has no literals, but uses rules that are not in force on that day:"),
        );
        text += &not_in_force(model, names, day, clause);
    }
    text + &further(empty.len(), "clause without literals", "clauses without literals")
}

/// The rules that a clause uses and that are not in force.
fn not_in_force(model: &Model<'_>, names: &Names, day: Option<u16>, clause: u16) -> String {
    let printer = Printer::new(model, names);
    let out: Vec<u16> = model.use_counts(clause).into_iter().map(|(used, _)| used).collect();
    let out: Vec<u16> = out
        .into_iter()
        .filter(|&used| model.clause(used).is_some_and(|used| day.is_some_and(|day| !used.in_force(day))))
        .collect();
    let mut text = String::new();
    for &used in out.iter().take(LISTED) {
        let days = days_of(model.clause(used).and_then(|used| used.days.as_ref()));
        text += &wrapped(2, &format!("clause {used}, {days}: {}", printer.clause(used)));
    }
    text + &further(out.len(), "rule that is not in force", "rules that are not in force")
}

/// The clauses with the fewest literals, of a file that has none without.
fn shortest(model: &Model<'_>, names: &Names) -> String {
    let steps = model.clauses().iter().filter(|clause| !clause.is_input()).count();
    if steps == 0 {
        return wrapped(0, "The file has no step, and no clause without literals.");
    }
    let fewest = numbers(model).map(|clause| literals(model, clause)).min().unwrap_or(0);
    let short: Vec<u16> = numbers(model).filter(|&clause| literals(model, clause) == fewest).collect();
    let said = format!(
        "No clause is without literals. {} {} of {}, the last of them:",
        counted(short.len(), "clause"),
        if short.len() == 1 { "is" } else { "are" },
        counted(fewest, "literal"),
    );
    let printer = Printer::new(model, names);
    let last = short.iter().rev().take(LISTED);
    last.fold(wrapped(0, &said), |text, &clause| {
        text + &wrapped(2, &format!("clause {clause}: {}", printer.clause(clause)))
    })
}

/// How many are not listed.
fn further(count: usize, one: &str, several: &str) -> String {
    match count.saturating_sub(LISTED) {
        0 => String::new(),
        1 => format!("and 1 more {one}\n"),
        more => format!("and {} more {several}\n", grouped(more)),
    }
}

/// The numbers of all clauses.
fn numbers(model: &Model<'_>) -> impl Iterator<Item = u16> {
    0..model.answer().clauses
}

/// How many literals a clause has.
fn literals(model: &Model<'_>, clause: u16) -> usize {
    model.clause(clause).map_or(0, |clause| clause.literals.len())
}
