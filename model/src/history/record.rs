//! Records: their bytes, their fields, and the operation that they stand for. Those before request U12 are in old.rs.

use crate::rules::heap::Ref;

/// Document 02, U12: "History records become 12 bytes".
pub const RECORD: usize = 12;

/// "Byte 0 is the operation, byte 1 the root d, byte 2 the root s, byte 3 unused", then a cell number c and a size. U12: "the first
/// four as they were, then cell and size in four bytes each, low byte first."
#[derive(Clone, Copy, Debug, Default, PartialEq, Eq)]
pub struct Record {
    pub operation: u8,
    pub d: u8,
    pub s: u8,
    pub unused: u8,
    pub c: Ref,
    pub size: Ref,
}

/// What a record asks for, with the fields that it names.
#[derive(Clone, Copy, Debug, PartialEq, Eq)]
pub enum Operation {
    /// "Operation 1 allocates the size into d"
    Allocate { size: Ref, d: u8 },
    /// "2 copies root s to d"
    Copy { s: u8, d: u8 },
    /// "3 writes root s into cell c of the object in d"
    Write { s: u8, c: Ref, d: u8 },
    /// "4 reads cell c of the object in s into d"
    Read { c: Ref, s: u8, d: u8 },
    /// "5 clears d"
    Clear { d: u8 },
    /// "6 collects."
    Collect,
    /// Document 02, U6: "History operations 7 and 8 allocate data into d as 1 does"
    AllocateData { size: Ref, d: u8 },
    /// "and write the size field's number into cell c of the data in d"
    WriteNumber { number: Ref, c: Ref, d: u8 },
}

impl Record {
    pub fn from_bytes(bytes: [u8; RECORD]) -> Record {
        let [operation, d, s, unused, ..] = bytes;
        Record {
            operation,
            d,
            s,
            unused,
            c: low_byte_first(&bytes[4..8]),
            size: low_byte_first(&bytes[8..]),
        }
    }

    pub fn bytes(self) -> [u8; RECORD] {
        let mut bytes = [0; RECORD];
        bytes[..4].copy_from_slice(&[self.operation, self.d, self.s, self.unused]);
        for k in 0..4 {
            bytes[4 + k] = (self.c >> (8 * k)) as u8;
            bytes[8 + k] = (self.size >> (8 * k)) as u8;
        }
        bytes
    }

    /// The operation; none where document 02 has "9 for an unknown operation or a nonzero unused field".
    pub fn operation(self) -> Option<Operation> {
        let Record { d, s, c, size, .. } = self;
        let operation = match self.operation {
            1 => Operation::Allocate { size, d },
            2 => Operation::Copy { s, d },
            3 => Operation::Write { s, c, d },
            4 => Operation::Read { c, s, d },
            5 => Operation::Clear { d },
            6 => Operation::Collect,
            7 => Operation::AllocateData { size, d },
            8 => Operation::WriteNumber { number: size, c, d },
            _ => return None,
        };
        (operation.record() == self).then_some(operation)
    }
}

/// The number that some bytes make, "low byte first".
pub fn low_byte_first(bytes: &[u8]) -> Ref {
    bytes
        .iter()
        .rev()
        .fold(0, |number, byte| 256 * number + Ref::from(*byte))
}

impl Operation {
    /// "Fields an operation doesn't name, and byte 3, are 0."
    pub fn record(self) -> Record {
        let zero = Record::default();
        match self {
            Operation::Allocate { size, d } => Record {
                operation: 1,
                d,
                size,
                ..zero
            },
            Operation::Copy { s, d } => Record {
                operation: 2,
                d,
                s,
                ..zero
            },
            Operation::Write { s, c, d } => Record {
                operation: 3,
                d,
                s,
                c,
                ..zero
            },
            Operation::Read { c, s, d } => Record {
                operation: 4,
                d,
                s,
                c,
                ..zero
            },
            Operation::Clear { d } => Record {
                operation: 5,
                d,
                ..zero
            },
            Operation::Collect => Record {
                operation: 6,
                ..zero
            },
            Operation::AllocateData { size, d } => Record {
                operation: 7,
                d,
                size,
                ..zero
            },
            Operation::WriteNumber { number, c, d } => Record {
                operation: 8,
                d,
                c,
                size: number,
                ..zero
            },
        }
    }
}

/// The bytes of a history of these operations.
pub fn bytes(operations: &[Operation]) -> Vec<u8> {
    let records = operations.iter().map(|operation| operation.record());
    records.flat_map(|record| record.bytes()).collect()
}

/// Operations under short names, for histories written by hand.
pub mod short {
    use super::{Operation, Ref};

    pub fn allocate(size: Ref, d: u8) -> Operation {
        Operation::Allocate { size, d }
    }

    pub fn copy(s: u8, d: u8) -> Operation {
        Operation::Copy { s, d }
    }

    pub fn write(s: u8, c: Ref, d: u8) -> Operation {
        Operation::Write { s, c, d }
    }

    pub fn read(c: Ref, s: u8, d: u8) -> Operation {
        Operation::Read { c, s, d }
    }

    pub fn clear(d: u8) -> Operation {
        Operation::Clear { d }
    }

    pub const COLLECT: Operation = Operation::Collect;

    pub fn data(size: Ref, d: u8) -> Operation {
        Operation::AllocateData { size, d }
    }

    pub fn write_number(number: Ref, c: Ref, d: u8) -> Operation {
        Operation::WriteNumber { number, c, d }
    }
}
