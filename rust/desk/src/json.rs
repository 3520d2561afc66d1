//! A line of JSON.

use std::fmt::Write;

/// An object under construction, on one line.
#[derive(Default)]
pub struct Object {
    text: String,
}

impl Object {
    /// Adds a key with a text, or null.
    pub fn text(mut self, key: &str, value: Option<&str>) -> Object {
        self.key(key);
        match value {
            Some(value) => push_text(&mut self.text, value),
            None => self.text.push_str("null"),
        }
        self
    }

    /// Adds a key with a number, or null.
    pub fn number(mut self, key: &str, value: Option<u16>) -> Object {
        self.key(key);
        match value {
            Some(value) => self.text.push_str(&value.to_string()),
            None => self.text.push_str("null"),
        }
        self
    }

    /// The object with its line feed.
    pub fn line(mut self) -> String {
        self.text.push_str("}\n");
        self.text
    }

    /// Begins an entry.
    fn key(&mut self, key: &str) {
        self.text.push(if self.text.is_empty() { '{' } else { ',' });
        push_text(&mut self.text, key);
        self.text.push(':');
    }
}

/// Adds a text in quotes, with what may not stand in them as escapes.
fn push_text(line: &mut String, text: &str) {
    line.push('"');
    for letter in text.chars() {
        match letter {
            '"' | '\\' => line.extend(['\\', letter]),
            '\n' => line.push_str("\\n"),
            '\r' => line.push_str("\\r"),
            '\t' => line.push_str("\\t"),
            _ if letter.is_control() => {
                let _ = write!(line, "\\u{:04x}", u32::from(letter));
            }
            _ => line.push(letter),
        }
    }
    line.push('"');
}

#[cfg(test)]
mod tests {
    use super::*;

    #[test]
    fn a_line() {
        let object = Object::default().text("a", Some("x\"\\\n\u{1}\u{7f}é")).number("b", Some(7));
        let line = object.text("c", None).number("d", None).line();
        assert_eq!(line, "{\"a\":\"x\\\"\\\\\\n\\u0001\\u007fé\",\"b\":7,\"c\":null,\"d\":null}\n");
    }
}
