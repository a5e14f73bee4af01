//! Lines of an owners file.

use super::Trait;
use crate::Random;

/// A good line.
pub fn good(traits: &mut Vec<Trait>, random: &mut Random) -> Vec<u8> {
    let words: Vec<String> = (0..3)
        .map(|_| {
            let number = number(random);
            let zeros = random.pick(&[0, 0, 0, 0, 0, 1, 2, 12, 30]);
            if zeros > 0 {
                traits.push(Trait::LeadingZeros);
            }
            format!("{}{number}", "0".repeat(zeros))
        })
        .collect();
    words.join(" ").into_bytes()
}

/// A number of 32 bits, its bounds more often.
fn number(random: &mut Random) -> u32 {
    let any = random.any() as u32;
    random.pick(&[0, 1, 7, 1000, 65_535, 65_536, u32::MAX - 1, u32::MAX, any])
}

/// A line that is bad, made of a good one.
pub fn bad(good: &[u8], random: &mut Random) -> Vec<u8> {
    let text = String::from_utf8_lossy(good).into_owned();
    let mut words: Vec<String> = text.split(' ').map(String::from).collect();
    let at = random.below(words.len());
    let other = match random.below(8) {
        0 => random.pick(&[
            "4294967296",
            "4294967297",
            "9999999999",
            "18446744073709551616",
        ]),
        1 => random.pick(&["99999999999999999999999", "0004294967296"]),
        2 => "",
        3 => random.pick(&[
            "-1", "+1", "0x1", "1a", "1.", "1,", "\t1", "1\r", "1\0", "\u{b2}",
        ]),
        4 => {
            words.push(String::from("1"));
            return words.join(" ").into_bytes();
        }
        5 => {
            words.remove(at);
            return words.join(" ").into_bytes();
        }
        6 => return words.join(random.pick(&["  ", "\t", ",", ""])).into_bytes(),
        _ => return [good, random.pick(&[&b" "[..], b"\r", b"\0", b"x"])].concat(),
    };
    words[at] = other.to_string();
    words.join(" ").into_bytes()
}

/// A line that nobody takes.
pub fn any(random: &mut Random) -> Vec<u8> {
    let count = random.below(12);
    let bytes = random.bytes(count).into_iter();
    bytes.filter(|&byte| byte != b'\n').collect()
}
