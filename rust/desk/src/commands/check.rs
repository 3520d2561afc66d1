//! `yestrwyn check`: the verdict of each file.

use std::ops::ControlFlow;

use yestrwyn::{Form, Verdict};

use super::options::{day, form};
use super::Command;
use crate::arguments::{Arguments, Takes};
use crate::checking::{Checked, Checker, Proved, Terms};
use crate::failure::{say, Failure};
use crate::input::{files_of, Found, Source};
use crate::json::Object;
use crate::output::Output;
use crate::pool::{in_order, processors, Taker};
use crate::progress::Progress;
use crate::status::Status;

pub const COMMAND: Command = Command {
    name: "check",
    synopsis: "[--day D] [--json] [--form old|new] FILE..",
    summary: "The verdict of each file.",
    text: "\
A line for each file, in the order of the arguments: its name and 'accepted N', 'open' or 'refused R at K'
with the reason in words. A folder stands for all files in it and in the folders below it, sorted by name.
Files are checked side by side on all processors. With more than one, a line on standard error says at the
end how many there were of each verdict, and how many were checked in a second.

    --day D        check on this day; without it a file whose verdict can depend on the day is a failure
    --json         a line of JSON for each file; docs/COMMAND.md has the keys
    --form new     the files are of the new form, with records of 20 bytes
",
    proved: "the verdict with its numbers, the counts, and the maximum index of the accepted clause.",
    not_proved: "the reason in words, and that the verdict does not depend on the day where none is given.",
    statuses:
        "0 all accepted, 1 some open, 2 some refused, 3 some not read or written; the highest of these.",
    takes: Takes { flags: &["--json"], values: &["--day", "--form"] },
    run,
};

/// What the check of a file gave.
type Outcome = Result<Checked, Failure>;

fn run(arguments: &Arguments, output: &mut Output) -> Result<Status, Failure> {
    let terms = Terms { form: form(arguments, "--form")?, day: day(arguments)? };
    if arguments.rest().is_empty() {
        return Err(Failure::usage("a file is wanted"));
    }
    let named = arguments.rest().iter().map(|word| Source::of(word));
    let found: Vec<Found> = named.flat_map(files_of).collect();
    let mut report = Report {
        lines: Lines { json: arguments.has("--json"), terms },
        found: &found,
        done: 0,
        counts: [0; 4],
        progress: Progress::new(found.len(), "files"),
        failure: None,
        output,
    };
    let worker = || {
        let mut checker = Checker::new(Proved::default(), terms);
        move |found: &Found| match &found.failure {
            Some(failure) => Err(failure.clone()),
            None => checker.check(&found.source),
        }
    };
    let threads = in_order(processors(), &found, worker, &mut report);
    threads.map_err(|error| Failure::usage(format_args!("no thread: {error}")))?;
    report.end()
}

/// The results, written as they come.
struct Report<'a> {
    lines: Lines,
    found: &'a [Found],
    done: usize,
    /// How many files were accepted, open, refused and not read.
    counts: [usize; 4],
    progress: Progress,
    /// Why nothing can be written any more.
    failure: Option<Failure>,
    output: &'a mut Output,
}

impl Taker<Outcome> for Report<'_> {
    fn take(&mut self, outcome: Outcome) -> ControlFlow<()> {
        let source = &self.found[self.done].source;
        self.done += 1;
        self.counts[usize::from(status(&outcome).number())] += 1;
        self.progress.clear();
        if let Err(failure) = &outcome {
            failure.say();
        }
        self.output.print_or_break(self.lines.line(source, &outcome), &mut self.failure)
    }

    fn tick(&mut self, done: usize) {
        self.progress.show(done);
    }
}

impl Report<'_> {
    /// The highest status, once the last line is written.
    fn end(mut self) -> Result<Status, Failure> {
        self.progress.clear();
        if let Some(failure) = self.failure {
            return Err(failure);
        }
        self.output.finish()?;
        if self.found.len() > 1 {
            let [accepted, open, refused, failed] = self.counts;
            let (files, seconds) = (self.found.len(), self.progress.elapsed().as_secs_f64());
            say(format_args!(
                "{files} files in {seconds:.2} s, {:.0} in a second: {accepted} accepted, {open} open, {refused} refused, \
                 {failed} failed",
                files as f64 / seconds
            ));
        }
        let all = [Status::Accepted, Status::Open, Status::Refused, Status::Failed];
        let given = all.into_iter().zip(self.counts).filter(|(_, count)| *count > 0);
        Ok(given.map(|(status, _)| status).max().unwrap_or(Status::Accepted))
    }
}

/// The status of one file.
fn status(outcome: &Outcome) -> Status {
    outcome.as_ref().map_or_else(Failure::status, |checked| checked.answer.verdict.into())
}

/// How lines are written.
struct Lines {
    json: bool,
    terms: Terms,
}

impl Lines {
    /// The line of a file; a text has none for a failure, which standard error has.
    fn line(&self, source: &Source, outcome: &Outcome) -> String {
        match (self.json, outcome) {
            (true, _) => self.json_line(source, outcome),
            (false, Ok(checked)) => format!(
                "{source}: {}
",
                in_words(checked.answer.verdict)
            ),
            (false, Err(_)) => String::new(),
        }
    }

    /// The line in JSON. All keys are in every line, in this order.
    fn json_line(&self, source: &Source, outcome: &Outcome) -> String {
        let checked = outcome.as_ref().ok();
        let verdict = checked.map(|checked| checked.answer.verdict);
        let [clause, reason, record] = numbers(verdict);
        let meaning = match verdict {
            Some(Verdict::Refused { reason, .. }) => Some(reason.to_string()),
            _ => None,
        };
        let answer = checked.map(|checked| checked.answer);
        Object::default()
            .text("file", Some(&file_name(source)))
            .text("form", Some(if self.terms.form == Form::Old { "old" } else { "new" }))
            .number("day", self.terms.day)
            .text("verdict", Some(word(verdict)))
            .number("clause", clause)
            .number("maximum_index", checked.and_then(|checked| checked.maximum_index))
            .number("reason", reason)
            .number("record", record)
            .text("meaning", meaning.as_deref())
            .number("symbols", answer.map(|answer| answer.symbols))
            .number("rows", answer.map(|answer| answer.rows))
            .number("clauses", answer.map(|answer| answer.clauses))
            .number("bindings", answer.map(|answer| answer.bindings))
            .text("error", outcome.as_ref().err().map(Failure::to_string).as_deref())
            .line()
    }
}

/// The name of a file for JSON, with its own characters; bytes that are no text are replaced.
fn file_name(source: &Source) -> String {
    source.path().map_or_else(|| "-".to_string(), |path| path.to_string_lossy().into_owned())
}

/// A verdict, with the reason in words.
pub fn in_words(verdict: Verdict) -> String {
    match verdict {
        Verdict::Refused { reason, .. } => format!("{verdict}: {reason}"),
        _ => verdict.to_string(),
    }
}

/// The word for a verdict, or for none.
fn word(verdict: Option<Verdict>) -> &'static str {
    match verdict {
        Some(Verdict::Accepted(_)) => "accepted",
        Some(Verdict::Open) => "open",
        Some(Verdict::Refused { .. }) => "refused",
        None => "failed",
    }
}

/// The numbers of a verdict: clause, reason and record.
fn numbers(verdict: Option<Verdict>) -> [Option<u16>; 3] {
    match verdict {
        Some(Verdict::Accepted(clause)) => [Some(clause), None, None],
        Some(Verdict::Refused { reason, record }) => [None, Some(reason.number()), Some(record)],
        Some(Verdict::Open) | None => [None; 3],
    }
}
