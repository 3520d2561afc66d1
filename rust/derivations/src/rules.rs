//! The rules that a clause uses, and which of them a rulebook has.

use std::collections::HashMap;
use std::error::Error;
use std::fmt;

use crate::model::Model;
use crate::names::Names;
use crate::text::Printer;
use crate::variants::{Key, Patterns};
use crate::wording::{counted, days_of, times};

/// An input clause that a clause uses.
#[derive(Clone, Copy, PartialEq, Eq, Debug)]
pub struct UsedRule {
    /// The input clause.
    pub clause: u16,
    /// Its record.
    pub record: u16,
    /// How often it is used.
    pub times: usize,
}

/// The input clauses that a clause uses, each once and in their order.
pub fn used_rules(model: &Model<'_>, clause: u16) -> Vec<UsedRule> {
    let used = model.use_counts(clause).into_iter();
    let record = |clause: u16| model.clause(clause).map_or(0, |clause| clause.record);
    used.map(|(clause, times)| UsedRule { clause, record: record(clause), times }).collect()
}

/// Neither of two lists of symbols begins the other, so that their clauses cannot be compared.
#[derive(Clone, Copy, PartialEq, Eq, Debug)]
pub struct SymbolsDiffer {
    /// The first symbol whose arity differs.
    pub symbol: u16,
}

impl fmt::Display for SymbolsDiffer {
    fn fmt(&self, out: &mut fmt::Formatter<'_>) -> fmt::Result {
        let symbol = self.symbol;
        write!(
            out,
            "its symbols are not those of the file: symbol {symbol} takes another number of arguments"
        )
    }
}

impl Error for SymbolsDiffer {}

/// A rulebook that rules are compared with: the input clauses of another file.
pub struct Rulebook<'a> {
    model: &'a Model<'a>,
    /// The keys of the rules of the file that is compared.
    ours: HashMap<u16, Key>,
    /// The rulebook's clauses by their key, in their order.
    theirs: HashMap<Key, Vec<u16>>,
}

impl<'a> Rulebook<'a> {
    /// Compares a file's input clauses with those of a rulebook. Symbols are the same if they have the same number, so one list must be
    /// a beginning of the other, arity by arity, as for a merge.
    pub fn compare(model: &Model<'_>, rulebook: &'a Model<'a>) -> Result<Rulebook<'a>, SymbolsDiffer> {
        let pairs = model.symbols().iter().zip(rulebook.symbols());
        if let Some((symbol, _)) = (0..).zip(pairs).find(|(_, (one, other))| one.arity != other.arity) {
            return Err(SymbolsDiffer { symbol });
        }
        let mut patterns = Patterns::default();
        let ours = patterns.keys(model);
        let mut keys: Vec<(u16, Key)> = patterns.keys(rulebook).into_iter().collect();
        keys.sort_unstable_by_key(|&(clause, _)| clause);
        let mut theirs: HashMap<Key, Vec<u16>> = HashMap::new();
        for (clause, key) in keys {
            theirs.entry(key).or_default().push(clause);
        }
        Ok(Rulebook { model: rulebook, ours, theirs })
    }

    /// The clauses of the rulebook that are the same as an input clause of the file: the same literals in any order, up to a one-to-one
    /// renaming of variables. Days play no part.
    pub fn same(&self, clause: u16) -> &[u16] {
        self.ours.get(&clause).and_then(|key| self.theirs.get(key)).map_or(&[], Vec::as_slice)
    }

    /// What is said of an input clause of the file. A clause of the rulebook with the same days is named first.
    fn said(&self, model: &Model<'_>, clause: u16) -> String {
        let days =
            |model: &Model<'_>, clause: u16| model.clause(clause).and_then(|clause| clause.days.clone());
        let wanted = days(model, clause);
        let same = self.same(clause);
        let Some(&found) = same.iter().find(|&&same| days(self.model, same) == wanted).or(same.first())
        else {
            return "not in the rulebook".to_string();
        };
        let theirs = days(self.model, found);
        let otherwise = if theirs == wanted { "" } else { " with other days" };
        format!("in the rulebook{otherwise}: clause {found}, {}", days_of(theirs.as_ref()))
    }
}

/// The rules that a clause uses, in names, and of each whether a rulebook has it.
pub fn rules(model: &Model<'_>, names: &Names, clause: u16, rulebook: Option<&Rulebook<'_>>) -> String {
    let (printer, used) = (Printer::new(model, names), used_rules(model, clause));
    let uses = used.iter().map(|rule| rule.times).sum();
    let mut text =
        format!("clause {clause}: {} of {}\n", counted(uses, "use"), counted(used.len(), "input clause"));
    for rule in &used {
        let days = days_of(model.clause(rule.clause).and_then(|clause| clause.days.as_ref()));
        let (clause, record) = (rule.clause, rule.record);
        text += &format!("\nclause {clause}, record {record}, used {}, {days}\n", times(rule.times));
        text += &format!("  {}\n", printer.clause(clause));
        if let Some(rulebook) = rulebook {
            text += &format!("  {}\n", rulebook.said(model, clause));
        }
    }
    text + &rulebook.map_or_else(String::new, |rulebook| summary(&used, rulebook))
}

/// How many of the rules a rulebook has, and which it does not have.
fn summary(used: &[UsedRule], rulebook: &Rulebook<'_>) -> String {
    let missing: Vec<String> = used
        .iter()
        .filter(|rule| rulebook.same(rule.clause).is_empty())
        .map(|rule| rule.clause.to_string())
        .collect();
    let there = used.len() - missing.len();
    let not = match missing.len() {
        0 => String::new(),
        1 => format!("; not clause {}", missing[0]),
        _ => format!("; not clauses {}", missing.join(", ")),
    };
    format!("\n{there} of {} are in the rulebook{not}\n", used.len())
}
