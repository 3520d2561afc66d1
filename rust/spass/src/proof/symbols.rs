//! The symbols of a proof, and the variables of one line.

use std::collections::HashMap;

use yestrwyn_types::limits::ARITY;

use crate::error::Fault;

/// Symbols by number, in the order in which the proof first has them, those of arguments before what they are arguments of.
#[derive(Default, Debug)]
pub(crate) struct Symbols {
    numbers: HashMap<String, usize>,
    symbols: Vec<(String, u8)>,
}

impl Symbols {
    /// The number of a symbol that is applied to so many arguments.
    pub fn number(&mut self, name: &str, arguments: usize) -> Result<usize, Fault> {
        let fits = u8::try_from(arguments).ok().filter(|&arity| arity <= ARITY);
        let arity = fits.ok_or_else(|| Fault::Arguments(name.to_string(), arguments))?;
        if let Some(&number) = self.numbers.get(name) {
            let same = self.symbols.get(number).is_some_and(|symbol| symbol.1 == arity);
            return same.then_some(number).ok_or_else(|| Fault::TwoArities(name.to_string()));
        }
        self.numbers.insert(name.to_string(), self.symbols.len());
        self.symbols.push((name.to_string(), arity));
        Ok(self.symbols.len() - 1)
    }

    /// Names and arities in order.
    pub fn all(&self) -> &[(String, u8)] {
        &self.symbols
    }
}

/// The variables of a line. SPASS names them anew in each, in the order in which they appear: u to z, then x1, x2 and so on.
#[derive(Default)]
pub(crate) struct Variables<'a> {
    names: Vec<&'a str>,
}

impl<'a> Variables<'a> {
    /// The number of a variable, if it is the next one or was there before.
    pub fn number(&mut self, name: &'a str) -> Option<usize> {
        if let Some(number) = self.names.iter().position(|&known| known == name) {
            return Some(number);
        }
        let number = self.names.len();
        (variable(number) == name).then(|| self.names.push(name))?;
        Some(number)
    }

    /// How many there are.
    pub fn count(&self) -> usize {
        self.names.len()
    }
}

/// Does SPASS name variables like this?
pub(crate) fn is_variable(name: &str) -> bool {
    let mut letters = name.chars();
    match (letters.next(), letters.as_str()) {
        (Some('u'..='z'), "") => true,
        (Some('x'), number) => !number.starts_with('0') && number.bytes().all(|digit| digit.is_ascii_digit()),
        _ => false,
    }
}

/// The name of a variable by its number.
fn variable(number: usize) -> String {
    match ('u'..='z').nth(number) {
        Some(letter) => letter.to_string(),
        None => format!("x{}", number - 5),
    }
}
