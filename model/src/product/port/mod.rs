//! The product's work once more, algorithm by algorithm, in plain safe Rust: what the benchmark holds the
//! product's times against, and makes its list with. It is no model: nothing here says what is right.

mod blocks;
mod by_blocks;
mod collection;
mod damage;
mod history;
mod references;
mod replay;
mod sections;
mod steps;
mod two_passes;
mod words;

use crate::rules::heap::{Memory, Ref};

pub use blocks::{lowest_chunk, Searched};
pub use by_blocks::{check_by_blocks, collection_by_blocks};
pub use damage::check;
pub use history::{report, run_records, SoFar, Tally};
pub use replay::{full_collection, replay, replay_without_list, search_in_one_walk, step};
pub use sections::{find_chunk, renew, section_length, UNKNOWN};
pub use two_passes::search_in_two_passes;

/// The ten lent buffers.
pub struct Lent<'a> {
    pub a: &'a mut [u8],
    pub b: &'a mut [u8],
    pub counts: &'a mut [u8],
    pub cells: &'a mut [Ref],
    pub roots: &'a mut [Ref],
    pub waiting: &'a mut [Ref],
    pub sections: &'a mut [Ref],
    pub data: &'a mut [u8],
    pub marks: &'a mut [u8],
    pub list: &'a mut [Ref],
}

/// A memory, lent to the port.
pub fn lend(memory: &mut Memory) -> Lent<'_> {
    Lent {
        a: &mut memory.a,
        b: &mut memory.b,
        counts: &mut memory.counts,
        cells: &mut memory.cells,
        roots: &mut memory.roots,
        waiting: &mut memory.waiting,
        sections: &mut memory.sections,
        data: &mut memory.data,
        marks: &mut memory.marks,
        list: &mut memory.list,
    }
}

/// A number and two values.
#[derive(Clone, Copy, Debug, PartialEq, Eq)]
pub struct Answer {
    pub number: usize,
    pub value: usize,
    pub second: usize,
}

fn refusal(number: usize) -> Answer {
    Answer {
        number,
        value: 0,
        second: 0,
    }
}

fn acceptance(value: usize) -> Answer {
    telling(value, false)
}

fn telling(value: usize, stuck: bool) -> Answer {
    Answer {
        number: 0,
        value,
        second: usize::from(stuck),
    }
}
