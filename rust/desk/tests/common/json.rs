//! A line of JSON read by hand: an object of texts, numbers and nulls.

use std::iter::Peekable;
use std::str::Chars;

/// A value of an object.
#[derive(Clone, PartialEq, Eq, Debug)]
pub enum Value {
    Null,
    Number(u64),
    Text(String),
}

/// The keys and values of an object, in their order. Panics on anything else.
pub fn object(line: &str) -> Vec<(String, Value)> {
    let mut rest = line.chars().peekable();
    let mut entries = Vec::new();
    expect(&mut rest, '{');
    loop {
        let key = text(&mut rest);
        expect(&mut rest, ':');
        entries.push((key, value(&mut rest)));
        match rest.next() {
            Some(',') => {}
            Some('}') => break,
            other => panic!("{other:?} after a value"),
        }
    }
    assert_eq!(rest.next(), None, "nothing follows the object");
    entries
}

/// The value of a key.
pub fn get<'a>(entries: &'a [(String, Value)], key: &str) -> &'a Value {
    &entries.iter().find(|(other, _)| other == key).expect(key).1
}

/// A text as a value.
pub fn word(text: &str) -> Value {
    Value::Text(text.to_string())
}

fn expect(rest: &mut Peekable<Chars<'_>>, wanted: char) {
    assert_eq!(rest.next(), Some(wanted));
}

fn value(rest: &mut Peekable<Chars<'_>>) -> Value {
    match rest.peek() {
        Some('"') => Value::Text(text(rest)),
        Some('n') => {
            "null".chars().for_each(|letter| expect(rest, letter));
            Value::Null
        }
        _ => {
            let mut digits = String::new();
            while let Some(digit) = rest.next_if(char::is_ascii_digit) {
                digits.push(digit);
            }
            Value::Number(digits.parse().expect("a number"))
        }
    }
}

fn text(rest: &mut Peekable<Chars<'_>>) -> String {
    expect(rest, '"');
    let mut text = String::new();
    loop {
        match rest.next().expect("a text ends") {
            '"' => return text,
            '\\' => text.push(escape(rest)),
            letter => {
                assert!(u32::from(letter) >= 0x20, "a control character stands in a text");
                text.push(letter);
            }
        }
    }
}

fn escape(rest: &mut Peekable<Chars<'_>>) -> char {
    match rest.next() {
        Some('n') => '\n',
        Some('r') => '\r',
        Some('t') => '\t',
        Some(letter @ ('"' | '\\')) => letter,
        Some('u') => {
            let digits: String = rest.by_ref().take(4).collect();
            char::from_u32(u32::from_str_radix(&digits, 16).expect("four digits")).expect("a character")
        }
        other => panic!("{other:?} after a backslash"),
    }
}
