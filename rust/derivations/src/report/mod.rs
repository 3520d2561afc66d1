//! A page for the booking: the verdict, the rules used, the clauses in names and the derivation as a picture, in one file of HTML.

mod parts;

use yestrwyn_types::{Form, Verdict};

use crate::draw::{svg, IN_FULL};
use crate::escape::escaped;
use crate::explain::explain;
use crate::model::Model;
use crate::names::Names;
use crate::sha256::sha256;
use crate::wording::{checked_on, counted, grouped};
use parts::{entry, heading, paragraph, rules, steps};

/// How the page looks, on a screen and on paper.
const STYLE: &str = include_str!("style.css");

/// What a page is about, besides the file.
pub struct Booking<'a> {
    /// The name of the file.
    pub file: &'a str,
    /// The day of the check; without one the verdict is the same on every day.
    pub day: Option<u16>,
    /// Where the names are from, if there are any.
    pub names: Option<&'a str>,
}

/// The page of a file. It needs nothing else: no picture, no letters and no program from elsewhere. The same file, day and names give
/// the same page.
pub fn report(model: &Model<'_>, names: &Names, booking: &Booking<'_>) -> String {
    let verdict = model.answer().verdict;
    let mut page = String::from("<!DOCTYPE html>\n<html lang=\"en\">\n<head>\n<meta charset=\"utf-8\">\n");
    page += "<meta name=\"viewport\" content=\"width=device-width, initial-scale=1\">\n";
    page += "<meta http-equiv=\"Content-Security-Policy\" content=\"default-src 'none'; style-src 'unsafe-inline'\">\n";
    page += &format!("<title>{}: {verdict}</title>\n", escaped(booking.file));
    page += &format!("<style>\n{STYLE}</style>\n</head>\n<body>\n<main>\n");
    page += &header(verdict, booking);
    page += &file(model, booking);
    page += &match verdict {
        Verdict::Accepted(clause) => proof(model, names, clause),
        Verdict::Open | Verdict::Refused { .. } => said(model, names, booking),
    };
    page += &promises(verdict, booking);
    page + "</main>\n</body>\n</html>\n"
}

/// The verdict in large letters, and what it means at the desk.
fn header(verdict: Verdict, booking: &Booking<'_>) -> String {
    let on = checked_on(booking.day);
    let (class, title, meaning) = match verdict {
        Verdict::Accepted(_) => (
            "accepted",
            "No lawful plan",
            format!("By the rules and facts listed here, which are in force on {on}, there is no lawful plan for the trip."),
        ),
        Verdict::Open => (
            "open",
            "Nothing is shown",
            format!("The steps of the file are right, but for {on} they do not get there. Decide as you would without the file."),
        ),
        Verdict::Refused { .. } => (
            "refused",
            "The file is faulty",
            "Nothing is shown about the trip. Send this page to the author of the planner.".to_string(),
        ),
    };
    format!(
        "<header class=\"{class}\">\n<p class=\"verdict\">{verdict}</p>\n<h1>{title}</h1>\n{}</header>\n",
        paragraph(&meaning)
    )
}

/// Which file it is, and when it was checked for.
fn file(model: &Model<'_>, booking: &Booking<'_>) -> String {
    let mut text = heading("The file") + "<dl>\n";
    text += &entry("file", &escaped(booking.file));
    text += &bytes(model.form(), model.file());
    text += &entry("checked for", &escaped(&checked_on(booking.day)));
    if let Some(clause) = model.accepted() {
        let used = model.use_counts(clause);
        let derived = model.derivation(clause).len() - used.len();
        let uses = used.iter().map(|&(_, count)| count).sum();
        let [uses, rules, steps] =
            [counted(uses, "use"), counted(used.len(), "input clause"), counted(derived, "step")];
        text += &entry("proof", &format!("{uses} of {rules}, {steps}"));
    }
    text + "</dl>\n"
}

/// The length and the SHA-256 of a file. Of one that is too long, not all need have been read.
fn bytes(form: Form, bytes: &[u8]) -> String {
    let most = form.file_bytes();
    if bytes.len() > most {
        return entry("length", &format!("over {} bytes", grouped(most)));
    }
    let records = bytes.len() / form.record_bytes();
    let length = format!("{}, {}", counted(bytes.len(), "byte"), counted(records, "record"));
    entry("length", &length) + &entry("SHA-256", &format!("<code>{}</code>", sha256(bytes)))
}

/// The rules, the picture and the steps of a proof.
fn proof(model: &Model<'_>, names: &Names, clause: u16) -> String {
    let mut text = heading("Rules and facts used");
    text += &paragraph(
        "Each says that at least one of its lines is right, whatever is put for v0.1 and the like. A line with + says that \
         something is so, one with - that it is not. Compare them with the operator's rulebook and with the trip as it was asked for.",
    );
    text += &rules(model, names, clause);
    text += "<section>\n";
    text += &heading("How they lead to a contradiction");
    text += &picture(model, names, clause);
    text += "</section>\n";
    text += &heading("The steps");
    text + &steps(model, names, clause)
}

/// The picture, where it is not too large for a page.
fn picture(model: &Model<'_>, names: &Names, clause: u16) -> String {
    let clauses = model.derivation(clause).len();
    if clauses > IN_FULL {
        let said = format!(
            "The derivation has {} clauses; of more than {IN_FULL} no picture stands here. `yestrwyn draw` draws it.",
            grouped(clauses),
        );
        return paragraph(&said);
    }
    let said = "Rules and facts have round corners. Each other box follows from the boxes above it: from the literals whose numbers \
                stand at its lines, counted from 1.";
    format!("{}<div class=\"picture\">\n{}</div>\n", paragraph(said), svg(model, names, clause))
}

/// What is to be said of a file that is not accepted.
fn said(model: &Model<'_>, names: &Names, booking: &Booking<'_>) -> String {
    heading("What was found")
        + &format!("<pre>{}</pre>\n", escaped_lines(&explain(model, names, booking.day)))
}

/// Text of several lines.
fn escaped_lines(text: &str) -> String {
    let lines: Vec<String> = text.trim_end().lines().map(escaped).collect();
    lines.join("\n")
}

/// What is promised, and what is not.
fn promises(verdict: Verdict, booking: &Booking<'_>) -> String {
    let mut text = String::from("<footer>\n");
    if verdict.is_accepted() {
        text += &paragraph(
            "Proved of the check, for every file: the rules and facts used cannot all be met, and every step is the one that the \
             textbook has. Not promised: that the rules are the operator's, or that times, days, legs and routes are right. The check \
             does not know what the symbols mean.",
        );
    }
    let names = match booking.names {
        Some(names) => {
            format!("Names are from {names}; neither they nor this page are part of what is proved.")
        }
        None => "This page itself is not part of what is proved.".to_string(),
    };
    let again = "The file with its SHA-256 and the day are what the verdict is about: `yestrwyn check` gives it again.";
    text + &paragraph(&format!("{names} {again}")) + "</footer>\n"
}
