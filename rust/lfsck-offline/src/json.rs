//! JSON, as much of it as we print.

use std::fmt::Write;

/// A value.
pub enum Json {
    /// No value.
    Null,
    /// True or false.
    Bool(bool),
    /// A whole number that is not negative.
    Number(u64),
    /// A text.
    Text(String),
    /// Values in their order.
    List(Vec<Json>),
    /// Values under their names, in their order.
    Object(Vec<(&'static str, Json)>),
}

impl Json {
    /// A text.
    pub fn text(text: impl ToString) -> Json {
        Json::Text(text.to_string())
    }

    /// A text, or null.
    pub fn maybe(text: Option<impl ToString>) -> Json {
        text.map_or(Json::Null, Json::text)
    }

    /// A number, or null.
    pub fn maybe_number(number: Option<impl Into<u64>>) -> Json {
        number.map_or(Json::Null, |number| Json::Number(number.into()))
    }

    /// The value on a line of its own.
    pub fn line(&self) -> String {
        let mut out = String::new();
        self.write(&mut out);
        out.push('\n');
        out
    }

    fn write(&self, out: &mut String) {
        match self {
            Json::Null => out.push_str("null"),
            Json::Bool(value) => out.push_str(if *value { "true" } else { "false" }),
            Json::Number(number) => out.push_str(&number.to_string()),
            Json::Text(text) => write_text(text, out),
            Json::List(values) => write_all('[', ']', values, out, |value, out| value.write(out)),
            Json::Object(members) => write_all('{', '}', members, out, |(name, value), out| {
                write_text(name, out);
                out.push(':');
                value.write(out);
            }),
        }
    }
}

fn write_all<Item>(
    open: char,
    close: char,
    items: &[Item],
    out: &mut String,
    write: impl Fn(&Item, &mut String),
) {
    out.push(open);
    for (at, item) in items.iter().enumerate() {
        if at > 0 {
            out.push(',');
        }
        write(item, out);
    }
    out.push(close);
}

/// A text in quotes, everything but printable ASCII escaped, so that it cannot steer a terminal.
fn write_text(text: &str, out: &mut String) {
    out.push('"');
    for letter in text.chars() {
        match letter {
            '"' | '\\' => out.extend(['\\', letter]),
            ' '..='~' => out.push(letter),
            letter => write_escaped(letter, out),
        }
    }
    out.push('"');
}

/// Four digits, or a pair of four for a character above U+FFFF.
fn write_escaped(letter: char, out: &mut String) {
    for unit in letter.encode_utf16(&mut [0; 2]) {
        let _ = write!(out, "\\u{unit:04x}");
    }
}

#[cfg(test)]
mod tests {
    use super::*;

    #[test]
    fn values_are_printed_as_json() {
        let value = Json::Object(vec![
            ("none", Json::Null),
            ("list", Json::List(vec![Json::Number(1), Json::Bool(false)])),
            ("text", Json::text("a \"b\" \\ \n")),
        ]);
        let line = "{\"none\":null,\"list\":[1,false],\"text\":\"a \\\"b\\\" \\\\ \\u000a\"}\n";
        assert_eq!(value.line(), line);
    }

    #[test]
    fn all_but_printable_ascii_is_escaped() {
        let text = "\u{1b}[2J\u{7f}\u{9b}\u{ad}é\u{180e}\u{202e}\u{3164}\u{fe0f}\u{feff}\u{ffff} ~";
        let line = concat!(
            r#""\u001b[2J\u007f\u009b\u00ad\u00e9\u180e\u202e\u3164\ufe0f\ufeff\uffff ~""#,
            "\n"
        );
        assert_eq!(Json::text(text).line(), line);
        let pairs = "\"\\ud800\\udc00\\ud83d\\ude00\\udb40\\udc41\\udbff\\udfff\"\n";
        let text = "\u{10000}\u{1f600}\u{e0041}\u{10ffff}";
        assert_eq!(Json::text(text).line(), pairs);
    }
}
