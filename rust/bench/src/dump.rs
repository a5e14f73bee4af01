//! A dump of any length, made as it goes.

use numbers::layout::{HEADER_THREE, SLOT_BYTES};

/// The owners line of every entry.
const OWNER: &[u8] = b"1001 100 7\n";

/// What a dump has again and again: a file, and objects.
#[derive(Clone, Copy, Debug)]
pub struct Shape {
    /// The slots of the file.
    pub slots: usize,
    /// The objects for each file.
    pub objects: usize,
}

impl Shape {
    /// The bytes of a file's layout.
    pub fn layout(self) -> usize {
        HEADER_THREE + self.slots * SLOT_BYTES
    }
}

/// A dump whose pieces are made one after the other. All entries have an attribute that is skipped.
pub struct Dump {
    shape: Shape,
    block: Vec<u8>,
    /// How many times the block comes.
    times: usize,
    /// The bytes that were made.
    made: usize,
}

impl Dump {
    /// A dump of this shape and at least so many bytes.
    pub fn of(shape: Shape, bytes: usize) -> Dump {
        let block = block(shape);
        Dump {
            shape,
            times: bytes.div_ceil(block.len()),
            block,
            made: 0,
        }
    }

    /// The bytes of the whole dump.
    pub fn bytes(&self) -> usize {
        self.block.len() * self.times
    }

    /// The owners file for it.
    pub fn owners(&self) -> Vec<u8> {
        OWNER.repeat(self.entries().iter().sum())
    }

    /// The entries of files, and those of objects.
    pub fn entries(&self) -> [usize; 2] {
        [self.times, self.shape.objects * self.times]
    }

    /// Makes the next piece, as long as there is room for and bytes are left; how long it is.
    pub fn next(&mut self, piece: &mut [u8]) -> usize {
        let length = piece.len().min(self.bytes() - self.made);
        let mut filled = 0;
        while filled < length {
            let from = (self.made + filled) % self.block.len();
            let part = (length - filled).min(self.block.len() - from);
            piece[filled..filled + part].copy_from_slice(&self.block[from..from + part]);
            filled += part;
        }
        self.made += length;
        length
    }
}

/// A file and its objects.
fn block(shape: Shape) -> Vec<u8> {
    let mut text = String::from("# file: mnt/mdt/ROOT/home/alice/results/run\\0401/part.dat\n");
    text += &format!("trusted.link=0x{}\n", "d5".repeat(60));
    text += &format!("trusted.lma=0x{}\n", "01".repeat(24));
    text += &format!("trusted.lov=0x{}\n\n", "5aF0e1".repeat(shape.layout() / 3));
    for object in 0..shape.objects {
        text += &format!("# file: mnt/ost/O/240000400/d{object}/{object}\n");
        text += &format!("trusted.fid=0x{}\n", "0a".repeat([16, 32][object % 2]));
        text += &format!("trusted.lma=0x{}\n", "02".repeat(24));
        text += &format!("trusted.version=0x{}\n\n", "00".repeat(8));
    }
    text.into_bytes()
}
