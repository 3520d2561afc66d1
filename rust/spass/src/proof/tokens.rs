//! A line of the proof, taken apart.

/// A part of a line.
#[derive(Clone, Copy, PartialEq, Eq, Debug)]
pub(crate) enum Token<'a> {
    /// A name or a number.
    Word(&'a str),
    /// `||`
    Bars,
    /// `->`
    Arrow,
    /// Any other character.
    Mark(char),
}

/// The parts of a line that is read from the left.
pub(crate) struct Tokens<'a> {
    rest: &'a str,
}

impl<'a> Tokens<'a> {
    pub fn new(line: &'a str) -> Tokens<'a> {
        Tokens { rest: line.trim_start() }
    }

    /// The next part, which stays.
    pub fn peek(&self) -> Option<Token<'a>> {
        self.first().map(|(token, _)| token)
    }

    /// The next part, which goes.
    pub fn next(&mut self) -> Option<Token<'a>> {
        let (token, length) = self.first()?;
        self.rest = self.rest[length..].trim_start();
        Some(token)
    }

    /// Takes a part away if it is the next.
    pub fn take(&mut self, token: Token<'_>) -> bool {
        let is_next = self.peek() == Some(token);
        if is_next {
            self.next();
        }
        is_next
    }

    /// Takes a word away if it is the next part.
    pub fn word(&mut self) -> Option<&'a str> {
        let Some(Token::Word(word)) = self.peek() else { return None };
        self.next();
        Some(word)
    }

    /// Passes over the marks after a literal, such as `*`, `*+` and `*l`: how SPASS orders and selects it.
    pub fn pass_marks(&mut self) {
        if self.rest.starts_with(['*', '+']) {
            let end = self.rest.find(|letter: char| letter.is_whitespace() || letter == '.');
            self.rest = self.rest[end.unwrap_or(self.rest.len())..].trim_start();
        }
    }

    /// The next part and its length.
    fn first(&self) -> Option<(Token<'a>, usize)> {
        let length = self.rest.find(|letter: char| !in_word(letter)).unwrap_or(self.rest.len());
        if length > 0 {
            return Some((Token::Word(&self.rest[..length]), length));
        }
        if self.rest.starts_with("||") {
            return Some((Token::Bars, 2));
        }
        if self.rest.starts_with("->") {
            return Some((Token::Arrow, 2));
        }
        let mark = self.rest.chars().next()?;
        Some((Token::Mark(mark), mark.len_utf8()))
    }
}

/// Is a letter one of a name? DFG has letters, digits and underscores.
fn in_word(letter: char) -> bool {
    letter.is_alphanumeric() || letter == '_'
}
