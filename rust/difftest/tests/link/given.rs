//! LinkEAs as the numbers and names that the writer takes.

use difftest::Random;
use reference::link::Link;

use crate::input::LONGEST;

/// What the writer is lent to read.
#[derive(Clone, Debug, PartialEq)]
pub struct Given {
    pub fields: Vec<u64>,
    pub records: Vec<u64>,
    pub names: Vec<u8>,
}

impl Given {
    /// The linkEA in numbers; its names lie in any order among other bytes, or are those of the
    /// linkEA's own bytes. A repeated name may lie in one place.
    pub fn of(link: &Link, random: &mut Random) -> Given {
        let starts_and_names = match random.one_in(2) {
            true => within_itself(link),
            false => apart(link, random),
        };
        let (starts, names) = starts_and_names;
        let numbers = link.records.iter().zip(starts).flat_map(|(record, start)| {
            [
                record.parent.sequence,
                record.parent.id.into(),
                record.parent.version.into(),
                start as u64,
                record.name.len() as u64,
            ]
        });
        Given {
            fields: vec![
                link.records.len() as u64,
                link.total() as u64,
                link.time.into(),
                link.padding.into(),
            ],
            records: numbers.collect(),
            names,
        }
    }

    /// One number changed, one amount, or a byte of a name.
    pub fn damage(&mut self, random: &mut Random) {
        let wide = [1 << 32, 1 << 32 | 1, 1 << 63, u64::MAX];
        match random.below(17) {
            0 => resize(&mut self.fields, random),
            1 => resize(&mut self.records, random),
            2 => self.fields[0] = self.fields[0].wrapping_add(random.pick(&[1, u64::MAX, 256])),
            3 => self.fields[0] |= random.pick(&[1 << 32, 1 << 63]),
            4 => {
                let total = self.fields[1];
                self.fields[1] = random.pick(&[
                    total - 1,
                    total + 1,
                    total - 24,
                    total | 1 << 32,
                    total | 1 << 63,
                    0,
                    u64::MAX,
                ]);
            }
            5 => self.fields[2] = random.pick(&[0, u64::from(u32::MAX), wide[0], wide[2], wide[3]]),
            6 => self.fields[3] = random.pick(&[0, u64::from(u32::MAX), wide[0], wide[2], wide[3]]),
            7 => self.records.extend([1, 2, 3, 0, 1]),
            8 => {
                self.records.extend([1, 2, 3, 0, 1]);
                self.agree();
            }
            9 => {
                self.records.truncate(self.records.len().saturating_sub(5));
                self.agree();
            }
            10 => {
                let left = self.names.len().saturating_sub(1 + random.below(4));
                self.names.truncate(left);
            }
            11 if random.one_in(100) => self.lengthen(random),
            _ => self.damage_record(random),
        }
    }

    /// One number of a record, at and past its bounds, or a byte of its name.
    fn damage_record(&mut self, random: &mut Random) {
        let count = self.records.len() / 5;
        if count == 0 {
            return;
        }
        let names = self.names.len() as u64;
        let wide = random.pick(&[1 << 32, 1 << 32 | 1, 1 << 63, u64::MAX]);
        let record = &mut self.records[5 * random.below(count)..][..5];
        let (start, length) = (record[3], record[4]);
        match random.below(10) {
            0 => record[1] = wide,
            1 => record[2] = wide,
            2 => record[3] = random.pick(&[names - length + 1, names, names + 1, wide]),
            3 => record[3] = random.pick(&[0, length, length + 1, 42]).wrapping_neg(),
            4 => {
                record[4] = 0;
                self.agree();
            }
            5 => {
                let longer = [names - start + 1, LONGEST as u64 + 1, wide];
                record[4] = random.pick(&longer);
                self.agree();
            }
            6 => record[4] = random.pick(&[0, length + 1, length - 1, LONGEST as u64]),
            7 => record[0] = wide,
            kind => {
                let at = start as usize + random.below(length as usize);
                self.names[at] = if kind == 8 { b'/' } else { 0 };
            }
        }
    }

    /// A name at and above the greatest length, all of it within the names.
    fn lengthen(&mut self, random: &mut Random) {
        let length = LONGEST + random.pick(&[0, 1, 1, 2, 65_536]);
        let start = self.names.len();
        self.names.resize(start + length, b'n');
        if let Some(record) = self.records.last_chunk_mut::<5>() {
            record[3] = start as u64;
            record[4] = length as u64;
        }
        self.agree();
    }

    /// Makes the total that of header and records.
    fn agree(&mut self) {
        let lengths = self.records.chunks(5).map(|record| record[4]);
        self.fields[1] = lengths.fold(24, |total: u64, name| {
            total.wrapping_add(18).wrapping_add(name)
        });
    }
}

/// The names as parts of the linkEA.
fn within_itself(link: &Link) -> (Vec<usize>, Vec<u8>) {
    let starts = link.placed().map(|(place, _)| place + 18).collect();
    (starts, link.encode())
}

/// The names in bytes of their own, with others before, between and after them.
fn apart(link: &Link, random: &mut Random) -> (Vec<usize>, Vec<u8>) {
    let mut order: Vec<usize> = (0..link.records.len()).collect();
    random.shuffle(&mut order);
    let mut starts = vec![0; order.len()];
    let mut names = Vec::new();
    for which in order {
        let name = &link.records[which].name;
        let between = random.pick(&[0, 0, 1, 5]);
        names.extend(random.bytes(between));
        let earlier = (0..which).find(|&other| {
            let start: usize = starts[other];
            names.get(start..start + name.len()) == Some(name)
        });
        starts[which] = match earlier {
            Some(earlier) if random.one_in(2) => starts[earlier],
            _ => {
                names.extend(name);
                names.len() - name.len()
            }
        };
    }
    let after = random.pick(&[0, 0, 0, 1, 7]);
    names.extend(random.bytes(after));
    (starts, names)
}

/// A few numbers more or fewer.
fn resize(numbers: &mut Vec<u64>, random: &mut Random) {
    let fewer = numbers.len().saturating_sub(1 + random.below(5));
    if random.one_in(2) {
        numbers.truncate(fewer);
    } else {
        let more = 1 + random.below(5);
        numbers.extend(random.numbers(more));
    }
}
