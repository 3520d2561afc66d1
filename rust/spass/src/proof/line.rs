//! A line of the proof: `12[0:Res:7.0,15.1] Snail(u) || Eats(u,v)* -> Animal(u).`

use std::collections::HashSet;

use crate::error::{Fault, SpassError};
use crate::proof::symbols::{is_variable, Symbols, Variables};
use crate::proof::tokens::{Token, Tokens};
use crate::proof::Line;
use crate::term::{Clause, Literal, Term};

/// Levels of a term that are read: far more than proofs have, and few enough for any stack.
const LEVELS: usize = 500;

/// What stands before the clause: its number, the inference, and the clauses that this is about.
struct Heading {
    number: u32,
    inference: String,
    parents: Vec<u32>,
}

/// A clause under way.
struct Reading<'a, 'b> {
    tokens: Tokens<'a>,
    symbols: &'b mut Symbols,
    /// The symbols of the problem, as far as they are known.
    declared: &'b HashSet<&'a str>,
    variables: Variables<'a>,
}

/// Reads a line that stands at a place of the text.
pub(crate) fn read<'a>(
    line: &'a str,
    place: usize,
    symbols: &mut Symbols,
    declared: &HashSet<&'a str>,
) -> Result<Line, SpassError> {
    let mut tokens = Tokens::new(line);
    let heading = heading(&mut tokens);
    let Heading { number, inference, parents } =
        heading.map_err(|fault| SpassError { line: Some(place), step: None, fault })?;
    let mut reading = Reading { tokens, symbols, declared, variables: Variables::default() };
    let clause = reading.clause();
    let failed =
        |fault| SpassError { line: Some(place), step: Some(format!("{number} ({inference})")), fault };
    let clause = clause.map_err(failed)?;
    Ok(Line { place, number, inference, parents, clause })
}

/// Reads `12[0:Res:7.0,15.1]`.
fn heading(tokens: &mut Tokens<'_>) -> Result<Heading, Fault> {
    let number = number(tokens, "the number of a clause")?;
    expect(tokens, Token::Mark('['), "[ after the number of a clause")?;
    tokens.word().ok_or(Fault::Expected("the level of a clause"))?;
    expect(tokens, Token::Mark(':'), ": after the level of a clause")?;
    let inference = tokens.word().ok_or(Fault::Expected("the name of an inference"))?.to_string();
    let mut parents = Vec::new();
    if tokens.take(Token::Mark(':')) {
        loop {
            parents.push(parent(tokens)?);
            if !tokens.take(Token::Mark(',')) {
                break;
            }
        }
    }
    expect(tokens, Token::Mark(']'), "] after an inference")?;
    Ok(Heading { number, inference, parents })
}

/// Reads `15.1`. Which literal it is goes by an order that SPASS does not always print, so it is passed over.
fn parent(tokens: &mut Tokens<'_>) -> Result<u32, Fault> {
    let parent = number(tokens, "the number of a parent")?;
    expect(tokens, Token::Mark('.'), ". after the number of a parent")?;
    number(tokens, "the number of a literal")?;
    Ok(parent)
}

/// Reads a number.
fn number(tokens: &mut Tokens<'_>, what: &'static str) -> Result<u32, Fault> {
    tokens.word().and_then(|word| word.parse().ok()).ok_or(Fault::Expected(what))
}

/// Reads a part that must come next.
fn expect(tokens: &mut Tokens<'_>, token: Token<'_>, what: &'static str) -> Result<(), Fault> {
    tokens.take(token).then_some(()).ok_or(Fault::Expected(what))
}

impl<'a> Reading<'a, '_> {
    /// Reads literals, `||`, literals, `->`, literals and a full stop; only those after the arrow are positive.
    fn clause(&mut self) -> Result<Clause, Fault> {
        let mut literals = Vec::new();
        self.literals(false, &mut literals)?;
        expect(&mut self.tokens, Token::Bars, "a literal or ||")?;
        self.literals(false, &mut literals)?;
        expect(&mut self.tokens, Token::Arrow, "a literal or ->")?;
        self.literals(true, &mut literals)?;
        expect(&mut self.tokens, Token::Mark('.'), "a literal or a full stop")?;
        match self.tokens.peek() {
            Some(_) => Err(Fault::Expected("the end of the line")),
            None => Ok(Clause { literals, variables: self.variables.count() }),
        }
    }

    /// Reads literals of one sign.
    fn literals(&mut self, positive: bool, literals: &mut Vec<Literal>) -> Result<(), Fault> {
        while let Some(name) = self.tokens.word() {
            let atom = self.application(name, LEVELS)?;
            literals.push(Literal { positive, atom });
            self.tokens.pass_marks();
        }
        Ok(())
    }

    /// Reads what follows the name of a symbol: arguments in parentheses, if it has any.
    fn application(&mut self, name: &'a str, levels: usize) -> Result<Term, Fault> {
        let levels = levels.checked_sub(1).ok_or(Fault::Depth(LEVELS))?;
        let mut arguments = Vec::new();
        if self.tokens.take(Token::Mark('(')) {
            loop {
                arguments.push(self.term(levels)?);
                if !self.tokens.take(Token::Mark(',')) {
                    break;
                }
            }
            expect(&mut self.tokens, Token::Mark(')'), ") after arguments")?;
        }
        if name == "equal" && arguments.len() == 2 {
            return Err(Fault::Equality);
        }
        let symbol = self.symbols.number(name, arguments.len())?;
        Ok(Term::Application { symbol, arguments })
    }

    /// Reads a variable or an application.
    fn term(&mut self, levels: usize) -> Result<Term, Fault> {
        let name = self.tokens.word().ok_or(Fault::Expected("a term"))?;
        if !is_variable(name) || self.tokens.peek() == Some(Token::Mark('(')) {
            return self.application(name, levels);
        }
        let number = if self.declared.contains(name) { None } else { self.variables.number(name) };
        number.map(Term::Variable).ok_or_else(|| Fault::VariableName(name.to_string()))
    }
}
