//! `yestrwyn rules`: the rules that a proof uses.

use yestrwyn_derivations::{rules, used_rules, Model, Rulebook};

use super::options::named_file;
use super::Command;
use crate::arguments::{Arguments, Takes};
use crate::checking::CheckedFile;
use crate::failure::Failure;
use crate::input::Source;
use crate::output::Output;
use crate::status::Status;

pub const COMMAND: Command = Command {
    name: "rules",
    synopsis: "[--day D] [--names N] FILE [--against RULEBOOK]",
    summary: "The input clauses that the accepted clause uses, each once, with how often.",
    text: "\
    --day D        check on this day; asked for where the verdict can depend on it
    --names N      print names in the place of symbols
    --against R    say of each whether the rulebook R has it, term for term up to renaming of variables and the
                   order of literals, and whether with the same days
",
    proved: "that the file is accepted with this clause, and that its uses in force cannot all be true.",
    not_proved: "the list, and the comparison with a rulebook.",
    statuses: "0 listed, and all are in the rulebook with the same days; 1 some are not, or the file is open;\n\
               2 a file is refused; 3 not read or written.",
    takes: Takes { flags: &[], values: &["--day", "--names", "--against"] },
    run,
};

fn run(arguments: &Arguments, output: &mut Output) -> Result<Status, Failure> {
    let (file, names) = named_file(arguments)?;
    let (model, clause) = file.accepted_model()?;
    let Some(against) = arguments.value("--against") else {
        output.print(rules(&model, &names, clause, None))?;
        return Ok(Status::Accepted);
    };
    // A rulebook is compared whatever the day: its days are compared themselves.
    let book = CheckedFile::read(Source::of(against), Some(0))?;
    let book_model = book.standing_model()?;
    let compared = Rulebook::compare(&model, &book_model);
    let rulebook = compared.map_err(|differ| Failure::of(&book.source, differ))?;
    output.print(rules(&model, &names, clause, Some(&rulebook)))?;
    let all = used_rules(&model, clause).iter().all(|rule| has(&rulebook, &book_model, &model, rule.clause));
    Ok(if all { Status::Accepted } else { Status::Open })
}

/// Has a rulebook a rule with the days that it has in the file?
fn has(rulebook: &Rulebook<'_>, book: &Model<'_>, model: &Model<'_>, rule: u16) -> bool {
    let days = |model: &Model<'_>, clause| model.clause(clause).and_then(|clause| clause.days.clone());
    rulebook.same(rule).iter().any(|&same| days(book, same) == days(model, rule))
}
