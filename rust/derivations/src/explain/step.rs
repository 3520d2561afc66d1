//! What is wrong with a step, in sentences.

use yestrwyn_types::limits::{BINDINGS, INDEX, LITERALS, WORK};

use crate::fault::{Ended, Fault};
use crate::model::{origin, Expression, Literal, Model, Origin};
use crate::names::Names;
use crate::outlines::OutlineClash;
use crate::steps::{load, named, rerun, Outcome};
use crate::text::Printer;
use crate::unification::Failure;
use crate::values::Values;
use crate::wording::{counted, grouped};

/// Arguments of a way to a place that are named at most.
const WAY: usize = 8;

/// A step that is explained.
pub struct Step<'a> {
    model: &'a Model<'a>,
    printer: Printer<'a>,
    origin: Origin,
    one: Literal,
    others: Vec<Literal>,
    /// The values of its parents.
    values: Values,
}

impl<'a> Step<'a> {
    /// The step of a record, whose literals exist.
    pub fn of(model: &'a Model<'a>, names: &'a Names, record: u16) -> Option<Step<'a>> {
        let origin = origin(&model.record(record)?.record)?;
        let named = named(model, &origin)?;
        let mut values = Values::default();
        load(model, &mut values, &origin);
        let printer = Printer::new(model, names);
        Some(Step { model, printer, origin, one: named.one, others: named.others, values })
    }

    /// The fault of the step in sentences.
    pub fn sentences(&mut self, fault: &Fault) -> Vec<String> {
        match fault {
            Fault::Order(place) => vec![self.order(*place)],
            Fault::Signs(place) => [self.signs(*place)].into_iter().chain(self.others_that_fit()).collect(),
            Fault::TooLarge { literals, index } => vec![format!(
                "The clause would have {} and the maximum index {}; the most are {} and {}.",
                counted(*literals, "literal"),
                grouped(*index),
                grouped(LITERALS.into()),
                grouped(INDEX.into()),
            )],
            Fault::Outline(place, clash) => {
                let clash = self.outline(clash);
                self.atoms(*place).into_iter().chain([clash]).chain(self.others_that_fit()).collect()
            }
            Fault::Unification(ended) => {
                let failure = self.failure(ended);
                let fit = match ended.failure {
                    Failure::Clash { .. } | Failure::Occurs { .. } => self.others_that_fit(),
                    Failure::Work | Failure::Bindings => None,
                };
                self.atoms(ended.other).into_iter().chain(failure).chain(fit).collect()
            }
            _ => Vec::new(),
        }
    }

    /// The two literals as they are in the step, of which the second is a right one.
    fn atoms(&mut self, place: usize) -> Vec<String> {
        let [one, other] = match self.origin {
            Origin::Resolve { left, .. } => {
                let by = self.model.clause(left).map_or(0, |left| left.max_index);
                ["left literal".to_string(), format!("right literal, its indices raised by {by}")]
            }
            _ => ["literal kept".to_string(), "literal deleted".to_string()],
        };
        let mut literals = vec![(one, self.one)];
        literals.extend(self.others.get(place).map(|&right| (other, right)));
        let said = |(what, literal)| format!("{what}: {}", self.printer.shortened(&mut self.values, literal));
        literals.into_iter().map(said).collect()
    }

    /// Right literals that do not rise.
    fn order(&self, place: usize) -> String {
        let Origin::Resolve { right_literals, .. } = &self.origin else { return String::new() };
        let numbers: Vec<String> = right_literals.iter().map(u16::to_string).collect();
        format!(
            "The right literals are {}: the {} is not larger than the one before it.",
            numbers.join(", "),
            ["first", "second", "third", "fourth"][place.min(3)],
        )
    }

    /// Signs that do not fit.
    fn signs(&self, place: usize) -> String {
        let word = |positive: bool| if positive { "positive" } else { "negative" };
        let other = self.others.get(place).is_some_and(|other| other.positive);
        match &self.origin {
            Origin::Factor { .. } => format!(
                "The literal kept is {} and the one deleted {}: a factoring step takes two of the same sign.",
                word(self.one.positive),
                word(other),
            ),
            Origin::Resolve { right_literals, .. } => format!(
                "The left literal is {} and so is right literal {}: a resolution step takes opposite signs.",
                word(self.one.positive),
                right_literals.get(place).copied().unwrap_or(0),
            ),
            Origin::Input => String::new(),
        }
    }

    /// Symbols that differ as the atoms are written.
    fn outline(&self, clash: &OutlineClash) -> String {
        format!(
            "As the two atoms are written in their input clauses, {} has {} in the one and {} in the other: nothing makes them equal.",
            way(&clash.path),
            self.printer.row(clash.left),
            self.printer.row(clash.right),
        )
    }

    /// How unification ended.
    fn failure(&self, ended: &Ended) -> Vec<String> {
        let mut values = ended.values.clone();
        let mut term = |at: Expression| self.printer.term(&mut values, at).text;
        match &ended.failure {
            Failure::Clash { path, left, right } => vec![format!(
                "With what the variables have become, {} is {} in the one and {} in the other: nothing makes them equal.",
                way(path),
                term(*left),
                term(*right),
            )],
            Failure::Occurs { path, variable, value, within } => vec![format!(
                "At {}, the variable {} would become {}, in which it occurs itself, at {}: nothing makes the two equal.",
                way(path),
                term(*variable),
                term(*value),
                way(within),
            )],
            Failure::Work => vec![format!(
                "{} pieces of work were done, and another would begin; {} had been noted by then.",
                grouped(WORK as usize),
                counted(ended.added, "binding"),
            )],
            Failure::Bindings => vec![format!(
                "Earlier steps have noted {} and this one {}; the file may hold {}.",
                counted(self.model.bindings().len(), "binding"),
                grouped(ended.added),
                grouped(BINDINGS),
            )],
        }
    }

    /// Which right literals the left one can be resolved with, of a step on one right literal.
    fn others_that_fit(&self) -> Option<String> {
        let Origin::Resolve { left, left_literal, right, right_literals } = &self.origin else { return None };
        if right_literals.len() != 1 {
            return None;
        }
        let count = self.model.clause(*right).map_or(0, |right| right.literals.len() as u16);
        let fits = |&number: &u16| {
            let opposite =
                self.model.literal(*right, number).is_some_and(|other| other.positive != self.one.positive);
            let (left, left_literal, right, right_literals) = (*left, *left_literal, *right, vec![number]);
            let origin = Origin::Resolve { left, left_literal, right, right_literals };
            opposite && unifies(self.model, &origin)
        };
        let numbers: Vec<String> = (1..=count).filter(fits).map(|number| number.to_string()).collect();
        let said = format!("literal {left_literal} of clause {left} can be resolved with");
        Some(match numbers.len() {
            0 => format!("In clause {right} there is no literal that {said}."),
            1 => format!("In clause {right}, {said} literal {}.", numbers[0]),
            _ => format!("In clause {right}, {said} each of the literals {}.", numbers.join(", ")),
        })
    }
}

/// Does a step on literals of opposite signs go through?
fn unifies(model: &Model<'_>, origin: &Origin) -> bool {
    let outcome = rerun(model, origin, model.bindings().len()).map(|rerun| rerun.outcome);
    matches!(outcome, Some(Outcome::Unified(unified)) if unified.failure.is_none())
}

/// A place in a term: `argument 2 of argument 1`.
fn way(path: &[u8]) -> String {
    if path.is_empty() {
        return "the top".to_string();
    }
    let mut said: Vec<String> =
        path.iter().rev().take(WAY).map(|argument| format!("argument {argument}")).collect();
    if path.len() > WAY {
        said.push(format!("a place {} deep", grouped(path.len() - WAY)));
    }
    said.join(" of ")
}
