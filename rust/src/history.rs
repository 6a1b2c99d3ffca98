//! Where a run of a recorded history stands, and what it comes to.

use std::fmt;

/// The figures of a run, in the order of the printed line. As text they are that line, without its end.
#[repr(C)]
#[derive(Clone, Copy, Debug, Default, PartialEq, Eq, Hash)]
#[non_exhaustive]
pub struct Tally {
    /// Accepted allocations, those of data too.
    pub allocations: u64,
    /// Blocks allocated in all.
    pub blocks: u64,
    /// The largest accepted size.
    pub largest: u64,
    /// Full collections, forced or recorded.
    pub collections: u64,
    /// The most blocks in use after any record.
    pub peak: u64,
    /// How often an object became stuck: a reference brought its count to the capacity.
    pub stuck: u64,
}

/// Where a run stands. A new run is all 0, which is the default. As text it is the line that the program `report` prints,
/// without its end.
#[repr(C)]
#[derive(Clone, Copy, Debug, Default, PartialEq, Eq, Hash)]
pub struct SoFar {
    /// 0 while the run goes on, else the number that stopped it: 3, 4, 5, 6, 7, 9, 10, 12 or 14.
    pub number: usize,
    /// The records run, which is also the number of the one that stopped it, counting from 0.
    pub records: usize,
    /// The figures.
    pub tally: Tally,
}

/// A run that a record stopped, or the end of the history. As text it is the printed line, without its end.
#[derive(Clone, Copy, Debug, PartialEq, Eq, Hash)]
pub struct Stopped {
    /// The number that stopped the run.
    pub number: usize,
    /// The number of the record, counting from 0; with 10, the number of whole records.
    pub record: usize,
}

impl SoFar {
    /// The figures, or where the run stopped.
    pub fn outcome(&self) -> Result<Tally, Stopped> {
        match self.number {
            0 => Ok(self.tally),
            number => Err(Stopped {
                number,
                record: self.records,
            }),
        }
    }
}

impl Stopped {
    /// What the number says.
    #[must_use]
    pub fn reason(&self) -> &'static str {
        match self.number {
            3 => "the size is 0 or above the number of blocks",
            4 => "a root is not below the number of roots",
            5 => "no chunk is free, also after a collection",
            6 => "a root is empty where an object is needed",
            7 => "the object has no such cell",
            9 => "the operation is unknown, or a field that it does not name is not 0",
            10 => "the history ends inside a record, or goes on past 4,294,967,295 records",
            12 => "a reference is stored in data or read from it, or a number is written where the object is not data",
            14 => "a full collection while one in small steps is open",
            _ => "a number that stops no run",
        }
    }
}

impl fmt::Display for Tally {
    fn fmt(&self, f: &mut fmt::Formatter) -> fmt::Result {
        let Tally {
            allocations,
            blocks,
            largest,
            collections,
            peak,
            stuck,
        } = self;
        write!(
            f,
            "{allocations} {blocks} {largest} {collections} {peak} {stuck}"
        )
    }
}

impl fmt::Display for Stopped {
    fn fmt(&self, f: &mut fmt::Formatter) -> fmt::Result {
        write!(f, "refused {} at record {}", self.number, self.record)
    }
}

impl fmt::Display for SoFar {
    fn fmt(&self, f: &mut fmt::Formatter) -> fmt::Result {
        match self.outcome() {
            Ok(tally) => tally.fmt(f),
            Err(stopped) => stopped.fmt(f),
        }
    }
}

impl std::error::Error for Stopped {}
