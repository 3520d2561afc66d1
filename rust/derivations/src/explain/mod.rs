//! A file's verdict in words: of a refused one the record, what it names, the reason, and how to mend it.

mod mending;
mod reason;
mod record;
mod standing;
mod step;

use yestrwyn_types::{Reason, Verdict};

use crate::fault;
use crate::model::Model;
use crate::names::Names;
use crate::wording::wrapped;

/// The verdict on a file in words, which was checked on a day; without one the verdict is the same on every day.
pub fn explain(model: &Model<'_>, names: &Names, day: Option<u16>) -> String {
    let verdict = model.answer().verdict;
    let first = format!("{verdict}\n\n");
    first
        + &match verdict {
            Verdict::Accepted(clause) => standing::accepted(model, day, clause),
            Verdict::Open => standing::open(model, names, day),
            Verdict::Refused { reason, record } => refused(model, names, reason, record),
        }
}

/// A refusal.
fn refused(model: &Model<'_>, names: &Names, reason: Reason, number: u16) -> String {
    let fault = fault::find(model).filter(|fault| fault.reason() == reason);
    let mut text = match reason {
        Reason::Length | Reason::Table => String::new(),
        _ => record::describe(model, names, number) + "\n",
    };
    text += &format!("why: reason {}, {reason}\n", reason.number());
    match fault {
        Some(fault) => {
            for sentence in reason::sentences(model, names, number, &fault) {
                text += &wrapped(2, &sentence);
            }
        }
        None => {
            text += &wrapped(
                2,
                "Nothing more can be said of it here: this version does not find the fault itself.",
            )
        }
    }
    if let Some(mend) = mending::mending(reason) {
        text += &format!("\nhow to mend it:\n{}", wrapped(2, &mend));
    }
    text
}
