//! The form of a history's records: the one place of this crate that has it.

/// A record of a history. Roots stand for local variables.
///
/// ```
/// use huwekapo::Record;
///
/// let record = Record::Write { s: 1, c: 7, d: 2 };
/// assert_eq!(record.bytes(), [3, 2, 1, 0, 7, 0, 0, 0, 0, 0, 0, 0]);
/// assert_eq!(Record::of(record.bytes()), Some(record));
/// // A field that the operation does not name has to be 0.
/// assert_eq!(Record::of([5, 0, 0, 1, 0, 0, 0, 0, 0, 0, 0, 0]), None);
/// ```
#[derive(Clone, Copy, Debug, PartialEq, Eq, Hash)]
pub enum Record {
    /// 1: allocates so many blocks into root d.
    Allocate {
        /// The blocks.
        size: u32,
        /// The root.
        d: u8,
    },
    /// 2: copies root s to d.
    Copy {
        /// The root that is copied.
        s: u8,
        /// The root that is written.
        d: u8,
    },
    /// 3: writes root s into cell c of the object in d.
    Write {
        /// The root that is written into the cell.
        s: u8,
        /// The cell.
        c: u32,
        /// The root of its owner.
        d: u8,
    },
    /// 4: reads cell c of the object in s into root d.
    Read {
        /// The cell.
        c: u32,
        /// The root of its owner.
        s: u8,
        /// The root that is written.
        d: u8,
    },
    /// 5: clears root d.
    Clear {
        /// The root.
        d: u8,
    },
    /// 6: a full collection.
    Collect,
    /// 7: allocates so many blocks of data into root d.
    AllocateData {
        /// The blocks.
        size: u32,
        /// The root.
        d: u8,
    },
    /// 8: writes a number into cell c of the data in d.
    WriteNumber {
        /// The number.
        number: u32,
        /// The cell.
        c: u32,
        /// The root of its owner.
        d: u8,
    },
}

impl Record {
    /// The bytes of a record.
    pub const LENGTH: usize = 12;

    /// The record as a history has it: the operation, d, s, 0, then c and the size in four bytes each, low byte first.
    #[must_use]
    pub fn bytes(self) -> [u8; Record::LENGTH] {
        let (operation, d, s, c, size) = match self {
            Record::Allocate { size, d } => (1, d, 0, 0, size),
            Record::Copy { s, d } => (2, d, s, 0, 0),
            Record::Write { s, c, d } => (3, d, s, c, 0),
            Record::Read { c, s, d } => (4, d, s, c, 0),
            Record::Clear { d } => (5, d, 0, 0, 0),
            Record::Collect => (6, 0, 0, 0, 0),
            Record::AllocateData { size, d } => (7, d, 0, 0, size),
            Record::WriteNumber { number, c, d } => (8, d, 0, c, number),
        };
        let mut bytes = [0; Record::LENGTH];
        bytes[..3].copy_from_slice(&[operation, d, s]);
        bytes[4..8].copy_from_slice(&c.to_le_bytes());
        bytes[8..].copy_from_slice(&size.to_le_bytes());
        bytes
    }

    /// The record of some bytes; none where the operation is unknown, or a field that it does not name is not 0: there a run
    /// stops with 9.
    #[must_use]
    pub fn of(bytes: [u8; Record::LENGTH]) -> Option<Record> {
        let number = |at: usize| u32::from_le_bytes([0, 1, 2, 3].map(|byte| bytes[at + byte]));
        let (d, s, c, size) = (bytes[1], bytes[2], number(4), number(8));
        let record = match bytes[0] {
            1 => Record::Allocate { size, d },
            2 => Record::Copy { s, d },
            3 => Record::Write { s, c, d },
            4 => Record::Read { c, s, d },
            5 => Record::Clear { d },
            6 => Record::Collect,
            7 => Record::AllocateData { size, d },
            8 => Record::WriteNumber { number: size, c, d },
            _ => return None,
        };
        (record.bytes() == bytes).then_some(record)
    }

    /// A history of these records. (No `FromIterator`: one for `Vec<u8>` would leave the type open wherever others collect bytes.)
    #[must_use]
    pub fn history(records: impl IntoIterator<Item = Record>) -> Vec<u8> {
        records.into_iter().flat_map(Record::bytes).collect()
    }
}
