//! A linkEA as the library reads it.

use numbers::answer::OK;
use numbers::call::{LINK_HEADER, LINK_READ};
use numbers::link::HEADER;

use crate::bar::{Bar, Work};
use crate::fid::{Fid, MdtFid};

/// A linkEA.
pub struct Link<'bytes> {
    /// How many records there are.
    pub count: u64,
    /// How many bytes.
    pub total: u64,
    /// The overflow time.
    pub time: u64,
    /// The padding.
    pub padding: u64,
    /// The records in their order.
    pub records: Vec<Record<'bytes>>,
}

/// A name of a file.
pub struct Record<'bytes> {
    /// Where the record begins.
    pub place: u64,
    /// The directory.
    pub parent: MdtFid,
    /// The name, a part of the linkEA.
    pub name: &'bytes [u8],
}

impl Link<'_> {
    /// The linkEA that some bytes are, walked from record to record, or the number with which the
    /// library refuses it.
    pub fn read<'bytes>(bytes: &'bytes [u8], bar: &Bar) -> Result<Link<'bytes>, u32> {
        let mut header = [0; LINK_HEADER];
        expect(lfsck_sys::link_read(bytes, &mut header))?;
        let [count, total, time, padding] = header;
        bar.turn_to(Work::Counted("reading the records", count));
        let mut records = Vec::new();
        let mut place = HEADER as u64;
        while place != total {
            let (record, next) = Record::read(bytes, place)?;
            records.push(record);
            bar.show(records.len() as u64);
            place = next;
        }
        Ok(Link {
            count,
            total,
            time,
            padding,
            records,
        })
    }
}

impl Record<'_> {
    /// The record at a place, and the next place.
    fn read(bytes: &[u8], place: u64) -> Result<(Record<'_>, u64), u32> {
        let mut out = [0; LINK_READ];
        expect(lfsck_sys::link_record(bytes, place, &mut out))?;
        let [sequence, id, version, start, length, next] = out;
        let record = Record {
            place,
            parent: MdtFid(Fid {
                sequence,
                id: id as u32,
                version: version as u32,
            }),
            name: &bytes[start as usize..][..length as usize],
        };
        Ok((record, next))
    }
}

fn expect(answer: u32) -> Result<(), u32> {
    match answer {
        OK => Ok(()),
        refusal => Err(refusal),
    }
}
