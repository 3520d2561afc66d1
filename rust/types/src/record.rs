//! A record: sixteen bytes read as a kind, a count and seven fields.

use crate::limits::RECORD_BYTES;

/// Kinds of record, by the number in byte 0.
pub mod kind {
    /// A symbol.
    pub const SYMBOL: u8 = 1;
    /// A row that is a variable.
    pub const VARIABLE: u8 = 2;
    /// A row that is an application.
    pub const APPLICATION: u8 = 3;
    /// An input clause.
    pub const INPUT: u8 = 4;
    /// A resolution step on one literal of each clause.
    pub const RESOLVE: u8 = 5;
    /// A factoring step.
    pub const FACTOR: u8 = 6;
    /// A resolution step on one literal of the left clause and one to four of the right.
    pub const RESOLVE_SEVERAL: u8 = 7;
    /// The days on which an input clause is in force. It is no clause itself.
    pub const WINDOW: u8 = 8;
}

/// A record as the file has it; nothing is tested yet.
#[derive(Clone, Copy, PartialEq, Eq, Hash, Debug)]
pub struct Record {
    /// Byte 0.
    pub kind: u8,
    /// Byte 1.
    pub count: u8,
    /// Fields a to g.
    pub fields: [u16; 7],
}

impl Record {
    /// A record of some kind with the fields given from `a` on and zeros after them.
    pub fn new(kind: u8, count: u8, given: &[u16]) -> Record {
        let mut fields = [0; 7];
        for (field, &value) in fields.iter_mut().zip(given) {
            *field = value;
        }
        Record { kind, count, fields }
    }

    /// The record in sixteen bytes.
    pub fn from_bytes(bytes: &[u8; RECORD_BYTES]) -> Record {
        let mut fields = [0; 7];
        for (field, pair) in fields.iter_mut().zip(bytes[2..].chunks_exact(2)) {
            *field = u16::from(pair[0]) | u16::from(pair[1]) << 8;
        }
        Record { kind: bytes[0], count: bytes[1], fields }
    }

    /// The sixteen bytes of this record.
    pub fn to_bytes(&self) -> [u8; RECORD_BYTES] {
        let mut bytes = [0; RECORD_BYTES];
        bytes[0] = self.kind;
        bytes[1] = self.count;
        for (pair, field) in bytes[2..].chunks_exact_mut(2).zip(self.fields) {
            pair.copy_from_slice(&field.to_le_bytes());
        }
        bytes
    }

    /// Are all fields from number `used` on (a is 0) zero?
    pub fn zero_from(&self, used: usize) -> bool {
        self.fields.iter().skip(used).all(|&field| field == 0)
    }
}

/// The part of the file that is record `number`, or the empty part if it is not wholly inside.
pub fn part(file: &[u8], number: u16) -> &[u8] {
    let start = usize::from(number) * RECORD_BYTES;
    file.get(start..start + RECORD_BYTES).unwrap_or(&[])
}

/// Record `number` of the file, if it is wholly inside.
pub fn read(file: &[u8], number: u16) -> Option<Record> {
    <&[u8; RECORD_BYTES]>::try_from(part(file, number)).ok().map(Record::from_bytes)
}

/// Count and fields a to g of an input clause's record; zeros for any other record.
pub fn input_literals(file: &[u8], number: u16) -> (u8, [u16; 7]) {
    match read(file, number) {
        Some(record) if record.kind == kind::INPUT => (record.count, record.fields),
        _ => (0, [0; 7]),
    }
}
