//! A run of a recorded history on a heap, from anything that can be read.

use crate::{Heap, Record, Refusal, SoFar};
use std::fmt;
use std::io::{self, ErrorKind, Read};

/// The bytes of a record.
const RECORD: usize = Record::LENGTH;

/// The bytes that are read before they are run: whole records, a mebibyte at most, and so many that the check of the heap,
/// which each piece begins with, hardly counts.
const PIECE: usize = (1 << 20) / RECORD * RECORD;

/// A run of a recorded history on a heap of any size, width and number of roots.
///
/// ```
/// use huwekapo::{Heap, Record, Run};
///
/// let history = Record::history([
///     Record::Allocate { size: 2, d: 0 },
///     Record::Allocate { size: 1, d: 1 },
///     Record::Allocate { size: 3, d: 2 },
/// ]);
/// let mut run = Run::new(Heap::of_report());
/// let so_far = run.read(&history[..])?;
/// assert_eq!(so_far.to_string(), "3 6 3 0 6 0");
/// assert_eq!(so_far.tally.blocks, 6);
/// assert_eq!(run.heap().free_blocks()?, 4090);
/// # Ok::<(), Box<dyn std::error::Error>>(())
/// ```
#[derive(Clone, Debug)]
#[must_use = "a run does nothing by itself"]
pub struct Run {
    heap: Heap,
    so_far: SoFar,
    /// The last bytes handed in, where they are no whole record yet.
    tail: Vec<u8>,
}

/// Why a history was not read to its end. The run stands behind the whole records that were read, and can go on.
#[derive(Debug)]
#[non_exhaustive]
pub enum RunError {
    /// A read failed.
    Read(io::Error),
    /// The library refused the heap (1, 2, 11, 13) or the run (19), and changed nothing.
    Refused(Refusal),
}

impl Run {
    /// A new run, on a heap as it stands.
    pub fn new(heap: Heap) -> Run {
        Run::resume(heap, SoFar::default())
    }

    /// A run that goes on from where another one stood.
    pub fn resume(heap: Heap, so_far: SoFar) -> Run {
        Run {
            heap,
            so_far,
            tail: Vec::new(),
        }
    }

    /// Where the run stands. Bytes that are no whole record yet are not in it.
    #[must_use]
    pub fn so_far(&self) -> SoFar {
        self.so_far
    }

    /// The heap as the run left it.
    pub fn heap(&self) -> &Heap {
        &self.heap
    }

    /// The heap, given back.
    pub fn into_heap(self) -> Heap {
        self.heap
    }

    /// Runs a history to its end, or until the run stops, and answers where it stands. Pieces of about a mebibyte are run, put
    /// together from however few bytes a single read gives; a read that was interrupted is tried again. After any other
    /// failure to read the run can go on with the same reader, and no byte is lost. A heap or a run that is refused is
    /// refused before anything is read.
    pub fn read(&mut self, mut history: impl Read) -> Result<SoFar, RunError> {
        self.run(&[])?;
        let mut piece = vec![0; PIECE];
        while self.so_far.number == 0 {
            let (length, more) = fill(&mut history, &mut piece);
            self.feed(&piece[..length])?;
            if !more? {
                return Ok(self.finish()?);
            }
        }
        Ok(self.so_far)
    }

    /// Runs the records of a piece, which may begin and end anywhere, and answers where the run stands. The heap is
    /// checked once for each piece, so that large ones are quicker. A run that was stopped stays as it is. A refusal takes
    /// nothing of the piece. Refusals: 1, 2, 11, 13, 19.
    pub fn feed(&mut self, piece: &[u8]) -> Result<SoFar, Refusal> {
        let mut piece = piece;
        let missing = RECORD - self.tail.len();
        if missing < RECORD && missing <= piece.len() {
            let (rest, behind) = piece.split_at(missing);
            self.run(&[&self.tail, rest].concat())?;
            self.tail.clear();
            piece = behind;
        }
        let whole = match self.tail.len() {
            0 => piece.len() / RECORD * RECORD,
            _ => 0,
        };
        if whole > 0 {
            self.run(&piece[..whole])?;
        }
        self.tail.extend(&piece[whole..]);
        Ok(self.so_far)
    }

    /// The end of the history: where the last record is cut off, the run stops with 10. Refusals: 1, 2, 11, 13, 19.
    pub fn finish(&mut self) -> Result<SoFar, Refusal> {
        let tail = self.tail.clone();
        self.run(&tail)?;
        self.tail.clear();
        Ok(self.so_far)
    }

    fn run(&mut self, bytes: &[u8]) -> Result<(), Refusal> {
        self.so_far = self.heap.run_records(self.so_far, bytes)?;
        Ok(())
    }
}

/// Reads until the piece is full: how many bytes were read, and whether there may be more.
fn fill(history: &mut impl Read, piece: &mut [u8]) -> (usize, io::Result<bool>) {
    let mut length = 0;
    while length < piece.len() {
        match history.read(&mut piece[length..]) {
            Ok(0) => return (length, Ok(false)),
            Ok(read) => length += read,
            Err(error) if error.kind() == ErrorKind::Interrupted => {}
            Err(error) => return (length, Err(error)),
        }
    }
    (length, Ok(true))
}

impl From<io::Error> for RunError {
    fn from(error: io::Error) -> RunError {
        RunError::Read(error)
    }
}

impl From<Refusal> for RunError {
    fn from(refusal: Refusal) -> RunError {
        RunError::Refused(refusal)
    }
}

impl fmt::Display for RunError {
    fn fmt(&self, f: &mut fmt::Formatter) -> fmt::Result {
        match self {
            RunError::Read(error) => write!(f, "reading the history: {error}"),
            RunError::Refused(refusal) => refusal.fmt(f),
        }
    }
}

impl std::error::Error for RunError {
    fn source(&self) -> Option<&(dyn std::error::Error + 'static)> {
        match self {
            RunError::Read(error) => Some(error),
            RunError::Refused(refusal) => Some(refusal),
        }
    }
}
