//! Refusals and damage kinds, with the words that the rules give them.

use crate::lent::Reply;
use std::fmt;

/// Why a call was refused: the first that applies of the refusals that the call names, in the order in which it
/// names them. A refusal changes no buffer. Its text is its number and the words that the rules give it.
#[derive(Clone, Copy, Debug, PartialEq, Eq, Hash)]
#[non_exhaustive]
pub enum Refusal {
    /// 1: blocks, width, the number of roots or any buffer's length is not as it must be.
    Misshapen,
    /// 2: the heap is damaged.
    Damaged(Damage),
    /// 3: n is 0 or above blocks.
    BadSize,
    /// 4: r is not below the number of roots, or a bit of `chosen` is at or past it.
    BadRoot,
    /// 5: no chunk is free.
    NoChunk,
    /// 6: `at` is not a first block.
    NoObject,
    /// 7: j is not below 4 times the object's size.
    BadCell,
    /// 8: v is neither 0 nor 1 + a first block.
    BadReference,
    /// 9: an entry of a list of calls is no call.
    NoCall,
    /// 10: a list of calls ends inside a call.
    CutOff,
    /// 11: a number of `sections` is not the size of the largest free chunk of its section.
    StaleSections,
    /// 12: a reference is stored in a cell of data, or a number is written or read where the object is not data.
    WrongKind,
    /// 13: `marks` and `list` are not as a collection, open or not, leaves them.
    BadMarks,
    /// 14: a step while no collection is open, or an opening or a full collection while one is.
    OutOfTurn,
    /// 15: the output is shorter than the sentence of a reason.
    ShortReason,
    /// 16: the output is shorter than the list of a shape.
    ShortShape,
    /// 17: an object of a copy finds no free chunk at its turn.
    NoPlace,
    /// 18: `replies` is too short for the replies of a list of calls.
    ShortReplies,
    /// 19: a run of records is out of range.
    BadRun,
}

/// What a damaged heap has, the first kind that applies. Number 6 is not used.
#[derive(Clone, Copy, Debug, PartialEq, Eq, Hash)]
#[non_exhaustive]
pub enum Damage {
    /// 1: a 0 in the B-map on a free block.
    EndOnFree,
    /// 2: an allocated block with B bit 1 whose next block is free or past the end.
    OpenEnd,
    /// 3: an object whose first block is not a multiple of the least power of two that is its size or more.
    Unaligned,
    /// 4: a cell of a free block that isn't 0, or a cell, not of data, or a root that is neither 0 nor 1 + a first block.
    DanglingReference,
    /// 5: a count other than 0 where no object starts; an object with count 0; a count below capacity that differs from
    /// the number of all roots and all cells, but those of data, naming the object.
    WrongCount,
    /// 7: a D bit where no object starts.
    StrayData,
}

impl Refusal {
    /// The refusal of a reply; none where it is an acceptance.
    pub(crate) fn of(reply: Reply) -> Option<Refusal> {
        match reply.number {
            0 => None,
            1 => Some(Refusal::Misshapen),
            2 => Some(Refusal::Damaged(Damage::of(reply.value))),
            3 => Some(Refusal::BadSize),
            4 => Some(Refusal::BadRoot),
            5 => Some(Refusal::NoChunk),
            6 => Some(Refusal::NoObject),
            7 => Some(Refusal::BadCell),
            8 => Some(Refusal::BadReference),
            9 => Some(Refusal::NoCall),
            10 => Some(Refusal::CutOff),
            11 => Some(Refusal::StaleSections),
            12 => Some(Refusal::WrongKind),
            13 => Some(Refusal::BadMarks),
            14 => Some(Refusal::OutOfTurn),
            15 => Some(Refusal::ShortReason),
            16 => Some(Refusal::ShortShape),
            17 => Some(Refusal::NoPlace),
            18 => Some(Refusal::ShortReplies),
            19 => Some(Refusal::BadRun),
            number => unreachable!("the library has no refusal {number}"),
        }
    }

    /// The refusal's number.
    #[must_use]
    pub fn number(self) -> usize {
        match self {
            Refusal::Misshapen => 1,
            Refusal::Damaged(_) => 2,
            Refusal::BadSize => 3,
            Refusal::BadRoot => 4,
            Refusal::NoChunk => 5,
            Refusal::NoObject => 6,
            Refusal::BadCell => 7,
            Refusal::BadReference => 8,
            Refusal::NoCall => 9,
            Refusal::CutOff => 10,
            Refusal::StaleSections => 11,
            Refusal::WrongKind => 12,
            Refusal::BadMarks => 13,
            Refusal::OutOfTurn => 14,
            Refusal::ShortReason => 15,
            Refusal::ShortShape => 16,
            Refusal::NoPlace => 17,
            Refusal::ShortReplies => 18,
            Refusal::BadRun => 19,
        }
    }
}

impl Damage {
    fn of(kind: usize) -> Damage {
        match kind {
            1 => Damage::EndOnFree,
            2 => Damage::OpenEnd,
            3 => Damage::Unaligned,
            4 => Damage::DanglingReference,
            5 => Damage::WrongCount,
            7 => Damage::StrayData,
            kind => unreachable!("the library has no damage kind {kind}"),
        }
    }

    /// The number of the kind.
    #[must_use]
    pub fn kind(self) -> usize {
        match self {
            Damage::EndOnFree => 1,
            Damage::OpenEnd => 2,
            Damage::Unaligned => 3,
            Damage::DanglingReference => 4,
            Damage::WrongCount => 5,
            Damage::StrayData => 7,
        }
    }
}

impl fmt::Display for Refusal {
    fn fmt(&self, f: &mut fmt::Formatter) -> fmt::Result {
        let words = match self {
            Refusal::Misshapen => {
                "blocks, width, the number of roots or any buffer's length is not as it must be"
            }
            Refusal::Damaged(damage) => return write!(f, "2: the heap is damaged, kind {damage}"),
            Refusal::BadSize => "n is 0 or above blocks",
            Refusal::BadRoot => {
                "r is not below the number of roots, or a bit of `chosen` is at or past it"
            }
            Refusal::NoChunk => {
                "no chunk is free: a chunk is s blocks starting at a multiple of s, s the least power of two \
                 that is n or more"
            }
            Refusal::NoObject => "`at` is not a first block (or not below blocks)",
            Refusal::BadCell => "j is not below 4 times the object's size",
            Refusal::BadReference => "v is neither 0 nor 1 + a first block",
            Refusal::NoCall => {
                "an entry is no call: its code is above 13, or it writes a number that no cell holds"
            }
            Refusal::CutOff => "the list ends inside a call",
            Refusal::StaleSections => {
                "a number of `sections` is not the size of the largest free chunk of its section"
            }
            Refusal::WrongKind => {
                "a reference is stored in a cell of data, or read from one; or a number is written or read where the \
                 object is not data"
            }
            Refusal::BadMarks => {
                "while a collection is open: the list is not of its form or holds an object that is unmarked, a mark is \
                 not on a first block, or a root, or a marked object that is not on the list, names an unmarked one; while \
                 none is: a mark or a place of the list is not 0"
            }
            Refusal::OutOfTurn => {
                "a step while no collection is open; an opening or a full collection while one is"
            }
            Refusal::ShortReason => "the output is shorter than the sentence",
            Refusal::ShortShape => "the output is shorter than the list",
            Refusal::NoPlace => "an object of the copy finds no free chunk at its turn",
            Refusal::ShortReplies => "`replies` is too short for the replies of all calls",
            Refusal::BadRun => {
                "the run has more records than there can be, or more allocations, blocks, collections or stuck objects \
                 than its records can have made"
            }
        };
        write!(f, "{}: {words}", self.number())
    }
}

impl fmt::Display for Damage {
    fn fmt(&self, f: &mut fmt::Formatter) -> fmt::Result {
        let words = match self {
            Damage::EndOnFree => "a 0 in the B-map on a free block",
            Damage::OpenEnd => {
                "an allocated block with B bit 1 whose next block is free or past the end"
            }
            Damage::Unaligned => {
                "an object whose first block is not a multiple of the least power of two that is its size \
                 or more"
            }
            Damage::DanglingReference => {
                "a cell of a free block that isn't 0, or a cell, not of data, or a root that is neither 0 nor \
                 1 + a first block"
            }
            Damage::WrongCount => {
                "a count other than 0 where no object starts; an object with count 0; a count below \
                 capacity that differs from the number of all roots and all cells, but those of data, naming \
                 the object"
            }
            Damage::StrayData => "a D bit where no object starts",
        };
        write!(f, "{}: {words}", self.kind())
    }
}

impl std::error::Error for Refusal {}
