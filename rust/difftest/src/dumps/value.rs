//! Values of attributes, and their digits.

use super::Trait;
use crate::Random;
use crate::tables::{FILES, OBJECTS, TINY, random_tables};
use numbers::fid;
use numbers::intake::ROOM;

/// A line of an attribute with its value in digits.
pub fn line(name: &str, value: &[u8], traits: &mut Vec<Trait>, random: &mut Random) -> Vec<u8> {
    let mut line = format!("trusted.{name}=0x").into_bytes();
    let case = random.below(3);
    line.reserve(2 * value.len());
    for byte in value {
        let digits = [byte >> 4, byte & 15].map(|digit| b"0123456789abcdef"[usize::from(digit)]);
        line.extend(digits.map(|digit| match case {
            0 => digit,
            1 => digit.to_ascii_uppercase(),
            _ if random.one_in(2) => digit.to_ascii_uppercase(),
            _ => digit,
        }));
    }
    let value = &line[line.len() - 2 * value.len()..];
    let upper = value.iter().any(u8::is_ascii_uppercase);
    if upper && value.iter().any(u8::is_ascii_lowercase) {
        traits.push(Trait::BothCases);
    }
    line
}

/// Compat, incompat and self FID.
pub fn lma(random: &mut Random) -> Vec<u8> {
    let mut value = random.bytes(8);
    value.extend(any_fid(random));
    value
}

/// A claim, in one of both forms.
pub fn claim(traits: &mut Vec<Trait>, random: &mut Random) -> Vec<u8> {
    let mut value = any_fid(random);
    if random.one_in(2) {
        traits.push(Trait::ShortFid);
    } else {
        traits.push(Trait::LongFid);
        value.extend(random.bytes(16));
    }
    value
}

/// A layout that can be read, or any bytes.
pub fn layout(traits: &mut Vec<Trait>, random: &mut Random) -> Vec<u8> {
    match random.below(40) {
        0 if random.one_in(10) => {
            traits.push(Trait::FullLov);
            random.bytes(ROOM)
        }
        0..4 => {
            traits.push(Trait::EmptyLov);
            Vec::new()
        }
        4..16 => {
            let count = 1 + random.below(40);
            random.bytes(count)
        }
        _ => {
            let tables = random_tables(TINY, random);
            let layouts = tables.parents.into_iter().flatten();
            let layout = layouts.map(|parent| parent.layout.encode()).next();
            layout.unwrap_or_else(|| random.bytes(3))
        }
    }
}

/// A FID of the tables, zeros, or any bytes.
fn any_fid(random: &mut Random) -> Vec<u8> {
    match random.below(8) {
        0 => vec![0; fid::BYTES],
        1 => random.bytes(fid::BYTES),
        2..5 => random.pick(&FILES).to_bytes().to_vec(),
        _ => random.pick(&OBJECTS).to_bytes().to_vec(),
    }
}
