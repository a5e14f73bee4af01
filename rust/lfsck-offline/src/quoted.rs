//! Names of any bytes and paths, for people.

use std::fmt::Write;
use std::os::unix::ffi::OsStrExt;
use std::path::Path;

/// The name in quotes. Printable ASCII letters stand for themselves but for the quote and the
/// backslash, which have a backslash before them; every other byte is `\x` and two digits. So
/// nothing steers a terminal, and no two names look alike.
pub fn quoted(name: &[u8]) -> String {
    let mut text = String::with_capacity(name.len() + 2);
    text.push('"');
    for &byte in name {
        match byte {
            b'"' | b'\\' => text.extend(['\\', byte as char]),
            b' '..=b'~' => text.push(byte as char),
            _ => {
                let _ = write!(text, "\\x{byte:02x}");
            }
        }
    }
    text.push('"');
    text
}

/// A path as it was given; in quotes where it has control characters.
pub fn path(path: &Path) -> String {
    let text = path.display().to_string();
    match text.contains(char::is_control) {
        true => quoted(path.as_os_str().as_bytes()),
        false => text,
    }
}

/// A message on one line, with spaces for control characters.
pub fn on_one_line(message: &str) -> String {
    message.replace(char::is_control, " ")
}

#[cfg(test)]
mod tests {
    use super::*;
    use std::collections::HashSet;

    #[test]
    fn letters_stand_for_themselves() {
        assert_eq!(quoted(b"report (2).txt~"), r#""report (2).txt~""#);
        assert_eq!(quoted(b" a "), r#"" a ""#);
        assert_eq!(quoted(b"a\"b\\x41"), r#""a\"b\\x41""#);
        assert_eq!(
            quoted("\u{1b}[2Jé\n\u{7f}".as_bytes()),
            r#""\x1b[2J\xc3\xa9\x0a\x7f""#
        );
    }

    #[test]
    fn a_path_is_in_quotes_where_it_would_steer() {
        for text in ["case", "../a b/\"c\\d", "/tmp/\u{e9}", "-", "./-"] {
            assert_eq!(path(Path::new(text)), text);
        }
        for (text, shown) in [
            ("a\u{1b}[2J", r#""a\x1b[2J""#),
            ("a\nb", r#""a\x0ab""#),
            ("\u{e9}\u{9b}31m", r#""\xc3\xa9\xc2\x9b31m""#),
            ("\u{7f}", r#""\x7f""#),
        ] {
            assert_eq!(path(Path::new(text)), shown);
        }
        assert_eq!(on_one_line("a\u{1b}b\nc"), "a b c");
    }

    #[test]
    fn no_two_names_look_alike_and_none_steers() {
        let mut seen = HashSet::new();
        for first in 0..=255 {
            for second in 0..=255 {
                let text = quoted(&[first, second]);
                assert!(text.bytes().all(|byte| (b' '..=b'~').contains(&byte)));
                assert!(seen.insert(text));
            }
            assert!(seen.insert(quoted(&[first])));
        }
    }
}
