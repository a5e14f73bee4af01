//! JSON read back, as much of it as we print.

use std::iter::Peekable;
use std::str::Chars;

/// Values within values, at most so deep.
const DEPTH: u32 = 8;

/// A value.
#[derive(Clone, Debug, PartialEq, Eq)]
pub enum Value {
    /// No value.
    Null,
    /// True or false.
    Bool(bool),
    /// A whole number that is not negative.
    Number(u64),
    /// A text.
    Text(String),
    /// Values in their order.
    List(Vec<Value>),
    /// Values under their names, in their order.
    Object(Vec<(String, Value)>),
}

impl Value {
    /// The value that a text is.
    pub fn parse(text: &str) -> Option<Value> {
        let mut rest = text.chars().peekable();
        let value = value(&mut rest, DEPTH)?;
        rest.next().is_none().then_some(value)
    }

    /// The value under a name.
    pub fn get(&self, name: &str) -> Option<&Value> {
        match self {
            Value::Object(members) => {
                let mut found = members.iter().filter(|(known, _)| known == name);
                found.next().map(|(_, value)| value)
            }
            _ => None,
        }
    }

    /// The number under a name.
    pub fn number(&self, name: &str) -> Option<u64> {
        match self.get(name)? {
            Value::Number(number) => Some(*number),
            _ => None,
        }
    }

    /// The text under a name.
    pub fn text(&self, name: &str) -> Option<&str> {
        match self.get(name)? {
            Value::Text(text) => Some(text),
            _ => None,
        }
    }

    /// The list under a name.
    pub fn list(&self, name: &str) -> Option<&[Value]> {
        match self.get(name)? {
            Value::List(values) => Some(values),
            _ => None,
        }
    }
}

type Rest<'text> = Peekable<Chars<'text>>;

fn value(rest: &mut Rest, depth: u32) -> Option<Value> {
    let depth = depth.checked_sub(1)?;
    match rest.peek()? {
        '{' => {
            let mut named = Vec::new();
            members(rest, ['{', '}'], |rest| {
                let name = text(rest)?;
                take(rest, ':')?;
                named.push((name, value(rest, depth)?));
                Some(())
            })?;
            Some(Value::Object(named))
        }
        '[' => {
            let mut values = Vec::new();
            members(rest, ['[', ']'], |rest| {
                values.push(value(rest, depth)?);
                Some(())
            })?;
            Some(Value::List(values))
        }
        '"' => text(rest).map(Value::Text),
        't' => word(rest, "true", Value::Bool(true)),
        'f' => word(rest, "false", Value::Bool(false)),
        'n' => word(rest, "null", Value::Null),
        _ => number(rest),
    }
}

fn take(rest: &mut Rest, letter: char) -> Option<()> {
    rest.next_if_eq(&letter).map(|_| ())
}

fn word(rest: &mut Rest, word: &str, value: Value) -> Option<Value> {
    word.chars().try_for_each(|letter| take(rest, letter))?;
    Some(value)
}

fn number(rest: &mut Rest) -> Option<Value> {
    let mut digits = String::new();
    while let Some(digit) = rest.next_if(char::is_ascii_digit) {
        digits.push(digit);
    }
    digits.parse().ok().map(Value::Number)
}

fn text(rest: &mut Rest) -> Option<String> {
    take(rest, '"')?;
    let mut text = String::new();
    loop {
        match rest.next()? {
            '"' => return Some(text),
            '\\' => text.push(escaped(rest)?),
            letter => text.push(letter),
        }
    }
}

fn escaped(rest: &mut Rest) -> Option<char> {
    match rest.next()? {
        letter @ ('"' | '\\') => Some(letter),
        'u' => numbered(rest),
        _ => None,
    }
}

/// The character of four digits, or of a pair of four.
fn numbered(rest: &mut Rest) -> Option<char> {
    let first = unit(rest)?;
    let mut units = vec![first];
    if (0xd800..0xdc00).contains(&first) {
        take(rest, '\\')?;
        take(rest, 'u')?;
        units.push(unit(rest)?);
    }
    char::decode_utf16(units).next()?.ok()
}

fn unit(rest: &mut Rest) -> Option<u16> {
    let digits: String = rest.by_ref().take(4).collect();
    u16::from_str_radix(&digits, 16).ok()
}

fn members(
    rest: &mut Rest,
    [open, close]: [char; 2],
    mut member: impl FnMut(&mut Rest) -> Option<()>,
) -> Option<()> {
    take(rest, open)?;
    if rest.next_if_eq(&close).is_some() {
        return Some(());
    }
    loop {
        member(rest)?;
        match rest.next()? {
            ',' => (),
            letter if letter == close => return Some(()),
            _ => return None,
        }
    }
}

#[cfg(test)]
mod tests {
    use super::*;
    use crate::json::Json;

    const TEXT: &str = "a \"b\" \\ \n é \u{ffff}\u{10000}\u{1f600}\u{10ffff}";

    #[test]
    fn what_is_printed_is_read() {
        let printed = Json::Object(vec![
            ("none", Json::Null),
            ("list", Json::List(vec![Json::Number(17), Json::Bool(true)])),
            ("text", Json::text(TEXT)),
            ("empty", Json::Object(Vec::new())),
        ]);
        let value = Value::parse(printed.line().trim_end()).expect("a value");
        assert_eq!(value.get("none"), Some(&Value::Null));
        let list = [Value::Number(17), Value::Bool(true)];
        assert_eq!(value.list("list"), Some(&list[..]));
        assert_eq!(value.text("text"), Some(TEXT));
        assert_eq!(value.get("empty"), Some(&Value::Object(Vec::new())));
        assert_eq!(value.get("other"), None);
    }

    #[test]
    fn anything_else_is_no_value() {
        let deep = "[".repeat(100_000);
        for text in [
            "",
            "{",
            "[1",
            "[1,]",
            "[1 2]",
            "\"a",
            "\"\\x\"",
            "nul",
            "-1",
            "1.5",
            "{\"a\"}",
            "{\"a\":1,}",
            "1 ",
            "18446744073709551616",
            "\"\\u12\"",
            "\"\\ud800\"",
            "\"\\ud800x\"",
            "\"\\ud800\\n\"",
            "\"\\ud800\\u0041\"",
            "\"\\ud800\\ud800\"",
            "\"\\udc00\"",
            "\"\\udc00\\ud800\"",
            &deep,
        ] {
            assert_eq!(Value::parse(text), None, "{:.20}", text);
        }
    }
}
