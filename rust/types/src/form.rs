//! The two forms of a file, and a record of either: the old one, and the first and last day beside it.

use crate::limits::{FILE_BYTES, NEW_FILE_BYTES, NEW_RECORDS, NEW_RECORD_BYTES, RECORDS, RECORD_BYTES};
use crate::record::{kind, Record};

/// The form of a file. Whoever has a file checked says which it is: the bytes do not.
#[derive(Clone, Copy, PartialEq, Eq, Hash, Debug, Default)]
pub enum Form {
    /// Records of 16 bytes, at most 4,096 of them. The days of an input clause are in records of kind 8.
    #[default]
    Old,
    /// Records of 20 bytes, at most 3,276 of them: the old 16, then the first and the last day of an input clause, and zeros for
    /// every other kind. There is no kind 8.
    New,
}

impl Form {
    /// Both forms.
    pub const ALL: [Form; 2] = [Form::Old, Form::New];

    /// Bytes of one record.
    pub const fn record_bytes(self) -> usize {
        match self {
            Form::Old => RECORD_BYTES,
            Form::New => NEW_RECORD_BYTES,
        }
    }

    /// Records that a file may hold.
    pub const fn records(self) -> usize {
        match self {
            Form::Old => RECORDS,
            Form::New => NEW_RECORDS,
        }
    }

    /// Bytes that a file may hold.
    pub const fn file_bytes(self) -> usize {
        match self {
            Form::Old => FILE_BYTES,
            Form::New => NEW_FILE_BYTES,
        }
    }

    /// The number by which the library is told the form: 16 or 20.
    pub const fn number(self) -> u16 {
        match self {
            Form::Old => 16,
            Form::New => 20,
        }
    }

    /// The form of a number, if there is one.
    pub fn from_number(number: u16) -> Option<Form> {
        Form::ALL.into_iter().find(|form| form.number() == number)
    }

    /// The other form.
    pub const fn other(self) -> Form {
        match self {
            Form::Old => Form::New,
            Form::New => Form::Old,
        }
    }

    /// Is this the length of a file: whole records, and not too many?
    pub const fn fits(self, length: usize) -> bool {
        length <= self.file_bytes() && length.is_multiple_of(self.record_bytes())
    }

    /// The part of a file that is record `number`, or the empty part if it is not wholly inside.
    pub fn part(self, file: &[u8], number: u16) -> &[u8] {
        let start = usize::from(number) * self.record_bytes();
        file.get(start..start + self.record_bytes()).unwrap_or(&[])
    }

    /// Record `number` of a file, if it is wholly inside.
    pub fn read(self, file: &[u8], number: u16) -> Option<Dated> {
        let (record, beside) = self.part(file, number).split_first_chunk()?;
        let record = Record::from_bytes(record);
        match self {
            Form::Old => Some(Dated::old(record)),
            Form::New => <&[u8; 4]>::try_from(beside).ok().map(|beside| Dated::beside(record, *beside)),
        }
    }
}

/// A record with its days beside it.
#[derive(Clone, Copy, PartialEq, Eq, Hash, Debug)]
pub struct Dated {
    /// What both forms have of it.
    pub record: Record,
    /// The first and the last day of an input clause. Other kinds have none, and two zeros in their place.
    pub days: [u16; 2],
}

impl Dated {
    /// The days of a clause that is in force always.
    pub const ALWAYS: [u16; 2] = [0, u16::MAX];

    /// A record of the old form: an input clause is in force always, unless a record of kind 8 says otherwise.
    pub fn old(record: Record) -> Dated {
        let days = if record.kind == kind::INPUT { Dated::ALWAYS } else { [0; 2] };
        Dated { record, days }
    }

    /// A record of the new form, with the four bytes after the first sixteen: the first and the last day, low byte first.
    fn beside(record: Record, [a, b, c, d]: [u8; 4]) -> Dated {
        Dated { record, days: [u16::from_le_bytes([a, b]), u16::from_le_bytes([c, d])] }
    }

    /// The twenty bytes of this record in the new form.
    pub fn to_bytes(&self) -> [u8; NEW_RECORD_BYTES] {
        let mut bytes = [0; NEW_RECORD_BYTES];
        let (record, beside) = bytes.split_at_mut(RECORD_BYTES);
        record.copy_from_slice(&self.record.to_bytes());
        for (pair, day) in beside.chunks_exact_mut(2).zip(self.days) {
            pair.copy_from_slice(&day.to_le_bytes());
        }
        bytes
    }

    /// Are the days zero, as they must be for every kind but 4?
    pub fn no_days(&self) -> bool {
        self.days == [0; 2]
    }
}
