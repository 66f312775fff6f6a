//! Where the fields of a record stand and how they are called in the text form. The tables serve
//! both ways, so that what is made is shown by the same words.

pub const RECORD: usize = 16;
pub const PIECE: u8 = 1;
pub const LINK: u8 = 2;

pub type Record = [u8; RECORD];

/// A number in a record, lowest byte first.
pub struct Field {
    pub name: &'static str,
    pub from: usize,
    pub bytes: usize,
    /// What it is where the text does not say it; such a field may be left out.
    pub otherwise: Option<u64>,
}

const fn field(name: &'static str, from: usize, bytes: usize, otherwise: Option<u64>) -> Field {
    Field { name, from, bytes, otherwise }
}

/// A piece may be worked on from the start if nothing else is said.
pub const PIECE_FIELDS: [Field; 4] = [
    field("desk", 1, 1, None),
    field("duration", 2, 2, None),
    field("release", 4, 4, Some(0)),
    field("due", 8, 4, None),
];

pub const BEFORE: Field = field("before", 2, 2, None);
pub const AFTER: Field = field("after", 4, 2, None);
pub const LINK_FIELDS: [Field; 1] = [field("handover", 6, 2, Some(0))];

impl Field {
    /// The greatest value that its bytes can hold, which is more than the planner accepts.
    pub fn most(&self) -> u64 {
        (1 << (8 * self.bytes)) - 1
    }

    pub fn put(&self, record: &mut Record, value: u64) {
        let bytes = value.to_le_bytes();
        record[self.from..self.from + self.bytes].copy_from_slice(&bytes[..self.bytes]);
    }

    pub fn get(&self, record: &Record) -> u64 {
        let bytes = &record[self.from..self.from + self.bytes];
        bytes.iter().rev().fold(0, |value, &byte| 256 * value + u64::from(byte))
    }
}
