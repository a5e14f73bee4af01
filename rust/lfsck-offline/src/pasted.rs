//! A linkEA as people have it: its bytes, or hexadecimal digits as getfattr prints them.

use numbers::link::MAGIC;

use crate::hex;

/// The attribute whose value a linkEA is.
const ATTRIBUTE: &[u8] = b"trusted.link";

/// How the bytes of a linkEA were given.
#[derive(Clone, Copy, Debug, PartialEq, Eq)]
pub enum Form {
    /// They begin with those of the magic.
    Raw,
    /// Digits after `0x`.
    Digits,
    /// Neither; they are taken as they are.
    Unknown,
}

/// The bytes that an input stands for. One that begins with the magic's bytes is raw, which no
/// text does.
pub fn bytes_of(input: Vec<u8>) -> (Vec<u8>, Form) {
    if input.starts_with(&MAGIC.to_le_bytes()) {
        return (input, Form::Raw);
    }
    match digits(&input) {
        Some(bytes) => (bytes, Form::Digits),
        None => (input, Form::Unknown),
    }
}

/// The bytes of the one line with digits; empty lines, comments and other attributes, of any
/// bytes, may stand round it.
fn digits(input: &[u8]) -> Option<Vec<u8>> {
    let lines = input.split(|&byte| byte == b'\n').map(<[u8]>::trim_ascii);
    let mut values = lines.filter_map(value);
    let value = values.next().filter(|_| values.next().is_none())?;
    let digits = value.strip_prefix(b"0x").or(value.strip_prefix(b"0X"))?;
    hex::decode(str::from_utf8(digits).ok()?)
}

/// What a line gives for a linkEA, if anything: all of it, or the value of the attribute.
fn value(line: &[u8]) -> Option<&[u8]> {
    if line.is_empty() || line.starts_with(b"#") {
        return None;
    }
    let mut parts = line.splitn(2, |&byte| byte == b'=');
    match (parts.next(), parts.next()) {
        (Some(ATTRIBUTE), Some(value)) => Some(value),
        (Some(name), Some(_)) if name.contains(&b'.') => None,
        _ => Some(line),
    }
}

#[cfg(test)]
mod tests {
    use super::*;

    fn given(input: &[u8]) -> (Vec<u8>, Form) {
        bytes_of(input.to_vec())
    }

    #[test]
    fn what_begins_with_the_magic_is_raw() {
        for input in [
            &b"\xdf\xf1\xea\x11"[..],
            b"\xdf\xf1\xea\x11 0x00",
            b"\xdf\xf1\xea\x11\n",
        ] {
            assert_eq!(given(input), (input.to_vec(), Form::Raw));
        }
    }

    #[test]
    fn digits_stand_for_bytes() {
        let bytes = (vec![0xdf, 0xf1, 0xea, 0x11, 0x00], Form::Digits);
        for text in [
            "0xdff1ea1100",
            "0XDFF1EA1100",
            "0xDfF1eA1100",
            " \t0xdff1ea1100\r\n",
            "\n\n0xdff1ea1100\n\n",
            "trusted.link=0xdff1ea1100\n",
            "# file: a/b\ntrusted.link=0xdff1ea1100\n\n",
            "# file: a/b\r\ntrusted.link=0xdff1ea1100\r\n",
            "trusted.lma=0x00\ntrusted.link=0xdff1ea1100\ntrusted.lov=0x\n",
        ] {
            assert_eq!(given(text.as_bytes()), bytes, "{text:?}");
        }
        assert_eq!(given(b"0x"), (Vec::new(), Form::Digits));
        assert_eq!(given(b"0xff"), (vec![0xff], Form::Digits));
    }

    #[test]
    fn anything_else_is_taken_as_it_is() {
        for text in [
            "",
            "dff1ea11",
            "0x0",
            "0xdff1ea1g",
            "0xdff1 ea11",
            "0xdff1\nea11",
            "0x00 0x00",
            "0x00\n0x00",
            "x0x00",
            "user.link=0x00",
            "trusted.link=0s3/HqEQ==",
            "trusted.link=0x00\ntrusted.link=0x00\n",
            "trusted.link=0x00\n0x00\n",
            "trusted.lov=0x00\n",
            "trusted.link\n0x00",
            "trusted.link=\"x\"",
            "# 0x00",
        ] {
            let bytes = text.as_bytes().to_vec();
            assert_eq!(given(text.as_bytes()), (bytes, Form::Unknown), "{text:?}");
        }
    }

    #[test]
    fn lines_round_the_digits_may_have_any_bytes() {
        for input in [
            &b"# file: caf\xe9\ntrusted.link=0xdff1ea1100\n"[..],
            b"user.x=\"caf\xe9\"\ntrusted.link=0xdff1ea1100\n",
            b"trusted.link=0xdff1ea1100\nuser.caf\xe9=0x00\n",
        ] {
            let bytes = vec![0xdf, 0xf1, 0xea, 0x11, 0x00];
            assert_eq!(given(input), (bytes, Form::Digits), "{input:02x?}");
        }
        for input in [
            &b"\xffx"[..],
            b"0x\xff\xff",
            b"0x0\xe9",
            b"\xe90x00",
            b"trusted.link=0x00\xe9\n",
            b"trusted.link=0x00\ncaf\xe9\n",
            b"# file: caf\xe9\n",
        ] {
            let bytes = input.to_vec();
            assert_eq!(given(input), (bytes, Form::Unknown), "{input:02x?}");
        }
    }
}
