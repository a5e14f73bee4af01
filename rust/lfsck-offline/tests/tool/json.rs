//! A small reader of JSON.

use std::collections::BTreeMap;
use std::iter::Peekable;
use std::str::Chars;

/// A value.
#[derive(Clone, Debug, PartialEq)]
pub enum Value {
    /// No value.
    Null,
    /// True or false.
    Bool(bool),
    /// A whole number.
    Number(u64),
    /// A text.
    Text(String),
    /// Values in their order.
    List(Vec<Value>),
    /// Values by name.
    Object(BTreeMap<String, Value>),
}

/// The value that a line of JSON is.
pub fn parse(line: &str) -> Value {
    assert!(line.ends_with('\n') && line.lines().count() == 1, "{line}");
    let mut rest = line.trim_end_matches('\n').chars().peekable();
    let value = value(&mut rest);
    assert_eq!(rest.next(), None, "{line}");
    value
}

impl Value {
    /// The value under a name.
    pub fn get(&self, name: &str) -> &Value {
        match self {
            Value::Object(members) => members.get(name).expect(name),
            other => panic!("no {name} in {other:?}"),
        }
    }

    /// The number under a name.
    pub fn number(&self, name: &str) -> u64 {
        match self.get(name) {
            Value::Number(number) => *number,
            other => panic!("{name}: {other:?}"),
        }
    }

    /// The text under a name.
    pub fn text(&self, name: &str) -> &str {
        match self.get(name) {
            Value::Text(text) => text,
            other => panic!("{name}: {other:?}"),
        }
    }

    /// The list under a name.
    pub fn list(&self, name: &str) -> &[Value] {
        match self.get(name) {
            Value::List(values) => values,
            other => panic!("{name}: {other:?}"),
        }
    }
}

type Rest<'text> = Peekable<Chars<'text>>;

fn value(rest: &mut Rest) -> Value {
    match rest.peek().expect("a value") {
        '{' => object(rest),
        '[' => list(rest),
        '"' => Value::Text(text(rest)),
        't' => word(rest, "true", Value::Bool(true)),
        'f' => word(rest, "false", Value::Bool(false)),
        'n' => word(rest, "null", Value::Null),
        _ => number(rest),
    }
}

fn take(rest: &mut Rest, letter: char) {
    assert_eq!(rest.next(), Some(letter));
}

fn word(rest: &mut Rest, word: &str, value: Value) -> Value {
    word.chars().for_each(|letter| take(rest, letter));
    value
}

fn number(rest: &mut Rest) -> Value {
    let mut digits = String::new();
    while let Some(digit) = rest.next_if(char::is_ascii_digit) {
        digits.push(digit);
    }
    assert!(digits == "0" || !digits.starts_with('0'), "{digits}");
    Value::Number(digits.parse().expect("a number"))
}

fn text(rest: &mut Rest) -> String {
    take(rest, '"');
    let mut text = String::new();
    loop {
        match rest.next().expect("a letter") {
            '"' => return text,
            '\\' => text.push(escaped(rest)),
            letter => {
                assert!((' '..='~').contains(&letter), "a bare {letter:?}");
                text.push(letter);
            }
        }
    }
}

fn escaped(rest: &mut Rest) -> char {
    match rest.next().expect("an escape") {
        letter @ ('"' | '\\' | '/') => letter,
        'u' => numbered(rest),
        other => panic!("escape {other}"),
    }
}

/// The character of four digits, or of a pair of four.
fn numbered(rest: &mut Rest) -> char {
    let first = unit(rest);
    let mut units = vec![first];
    if (0xd800..0xdc00).contains(&first) {
        take(rest, '\\');
        take(rest, 'u');
        units.push(unit(rest));
    }
    let text = String::from_utf16(&units).expect("a character");
    text.chars().next().expect("a character")
}

fn unit(rest: &mut Rest) -> u16 {
    let digits: String = rest.by_ref().take(4).collect();
    assert!(digits.len() == 4 && !digits.starts_with('+'), "{digits}");
    u16::from_str_radix(&digits, 16).expect("four digits")
}

fn list(rest: &mut Rest) -> Value {
    let mut values = Vec::new();
    members(rest, '[', ']', |rest| values.push(value(rest)));
    Value::List(values)
}

fn object(rest: &mut Rest) -> Value {
    let mut named = BTreeMap::new();
    members(rest, '{', '}', |rest| {
        let name = text(rest);
        take(rest, ':');
        let value = value(rest);
        assert!(named.insert(name, value).is_none(), "a name twice");
    });
    Value::Object(named)
}

fn members(rest: &mut Rest, open: char, close: char, mut member: impl FnMut(&mut Rest)) {
    take(rest, open);
    if rest.next_if_eq(&close).is_some() {
        return;
    }
    loop {
        member(rest);
        match rest.next() {
            Some(',') => (),
            Some(letter) if letter == close => return,
            other => panic!("{other:?} in a list"),
        }
    }
}
