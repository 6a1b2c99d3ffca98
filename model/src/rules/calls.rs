//! The calls as data, and their four words in a file.

use crate::rules::answers::{self, Kind, Reply};
use crate::rules::counting::{longest_waiting, Order};
use crate::rules::heap::{Memory, Ref};
use crate::rules::sections::keep_list_true;

/// One call with its own arguments.
#[derive(Clone, Copy, Debug, PartialEq, Eq, Hash)]
pub enum Call {
    Format,
    Check,
    Allocate {
        n: usize,
        r: usize,
    },
    /// v is any word, as the other arguments are: one that no cell can hold is refused.
    StoreRoot {
        r: usize,
        v: usize,
    },
    StoreCell {
        a: usize,
        j: usize,
        v: usize,
    },
    Collect,
    Look {
        a: usize,
    },
    FreeBlocks,
    /// Bit r of `chosen` stands for root r.
    ReturnRoots {
        chosen: u64,
    },
    AllocateData {
        n: usize,
        r: usize,
    },
    /// "Its cells hold any .. number", of 32 bits with U12: every v is right.
    WriteNumber {
        a: usize,
        j: usize,
        v: Ref,
    },
    ReadNumber {
        a: usize,
        j: usize,
    },
    OpenCollection,
    /// Any budget is right.
    StepCollection {
        budget: usize,
    },
}

impl Call {
    /// The four words of a call in a file.
    pub fn words(self) -> [u64; 4] {
        match self {
            Call::Format => [0, 0, 0, 0],
            Call::Check => [1, 0, 0, 0],
            Call::Allocate { n, r } => [2, n as u64, r as u64, 0],
            Call::StoreRoot { r, v } => [3, r as u64, v as u64, 0],
            Call::StoreCell { a, j, v } => [4, a as u64, j as u64, v as u64],
            Call::Collect => [5, 0, 0, 0],
            Call::Look { a } => [6, a as u64, 0, 0],
            Call::FreeBlocks => [7, 0, 0, 0],
            Call::ReturnRoots { chosen } => [8, chosen, 0, 0],
            Call::AllocateData { n, r } => [9, n as u64, r as u64, 0],
            Call::WriteNumber { a, j, v } => [10, a as u64, j as u64, v as u64],
            Call::ReadNumber { a, j } => [11, a as u64, j as u64, 0],
            Call::OpenCollection => [12, 0, 0, 0],
            Call::StepCollection { budget } => [13, budget as u64, 0, 0],
        }
    }

    /// Check, look and free blocks: "The check, the look and the free-block call write nothing." A number read neither.
    pub fn only_reads(self) -> bool {
        matches!(
            self,
            Call::Check | Call::Look { .. } | Call::FreeBlocks | Call::ReadNumber { .. }
        )
    }

    /// "each accepted call that allocates, stores a reference or may free an object": a number write and an opening do none of
    /// these, and "a buffer it isn't said to write keeps its content". A step may, whatever its budget.
    pub fn clears_waiting_list(self) -> bool {
        !self.only_reads() && !matches!(self, Call::WriteNumber { .. } | Call::OpenCollection)
    }

    /// The blocks that an allocation asks for, of either kind.
    pub fn allocates(self) -> Option<usize> {
        match self {
            Call::Allocate { n, .. } | Call::AllocateData { n, .. } => Some(n),
            _ => None,
        }
    }
}

/// Calls under short names, for lists written by hand.
pub mod short {
    use super::{Call, Ref};

    pub fn allocate(n: usize, r: usize) -> Call {
        Call::Allocate { n, r }
    }

    pub fn root(r: usize, v: usize) -> Call {
        Call::StoreRoot { r, v }
    }

    pub fn cell(a: usize, j: usize, v: usize) -> Call {
        Call::StoreCell { a, j, v }
    }

    pub fn look(a: usize) -> Call {
        Call::Look { a }
    }

    pub fn chosen(chosen: u64) -> Call {
        Call::ReturnRoots { chosen }
    }

    pub fn data(n: usize, r: usize) -> Call {
        Call::AllocateData { n, r }
    }

    pub fn write_number(a: usize, j: usize, v: Ref) -> Call {
        Call::WriteNumber { a, j, v }
    }

    pub fn read_number(a: usize, j: usize) -> Call {
        Call::ReadNumber { a, j }
    }

    pub const OPEN: Call = Call::OpenCollection;

    pub fn step(budget: usize) -> Call {
        Call::StepCollection { budget }
    }
}

/// "a set of roots as a 64-bit number, bit r for root r"
pub fn is_chosen(chosen: u64, r: usize) -> bool {
    chosen >> r & 1 == 1
}

/// Carries out one call on the lent memory and gives its reply.
pub fn apply(blocks: usize, width: usize, memory: &mut Memory, call: Call) -> Reply {
    apply_in_order(blocks, width, memory, call, &mut longest_waiting)
}

/// The same, with the order in which objects that wait are freed.
pub fn apply_in_order(
    blocks: usize,
    width: usize,
    memory: &mut Memory,
    call: Call,
    order: Order,
) -> Reply {
    match answers::refused_first(blocks, width, memory, call) {
        Some(reply) => reply,
        None => carry_out(blocks, width, memory, call, order),
    }
}

/// The same on a heap that is neither misshapen nor damaged, whose list of sections is true and whose marks are right: "A run of many calls may
/// check once and then rely on the proved fact that calls keep a heap undamaged."
pub fn apply_undamaged(blocks: usize, width: usize, memory: &mut Memory, call: Call) -> Reply {
    carry_out(blocks, width, memory, call, &mut longest_waiting)
}

fn carry_out(blocks: usize, width: usize, memory: &mut Memory, call: Call, order: Order) -> Reply {
    let a_before = memory.a.clone();
    let reply = match call {
        Call::Format => answers::format(blocks, memory),
        Call::Check => answers::check(),
        Call::Allocate { n, r } => {
            answers::allocate(blocks, width, memory, Kind::Ordinary, n, r, order)
        }
        Call::AllocateData { n, r } => {
            answers::allocate(blocks, width, memory, Kind::Data, n, r, order)
        }
        Call::WriteNumber { a, j, v } => answers::write_number(blocks, memory, a, j, v),
        Call::ReadNumber { a, j } => answers::read_number(blocks, memory, a, j),
        Call::StoreRoot { r, v } => answers::store_root(blocks, width, memory, r, v, order),
        Call::StoreCell { a, j, v } => answers::store_cell(blocks, width, memory, a, j, v, order),
        Call::Collect => answers::collect(blocks, width, memory),
        Call::Look { a } => answers::look(blocks, width, memory, a),
        Call::FreeBlocks => answers::free_blocks(blocks, memory),
        Call::ReturnRoots { chosen } => answers::return_roots(blocks, width, memory, chosen, order),
        Call::OpenCollection => answers::open_collection(blocks, memory),
        Call::StepCollection { budget } => {
            answers::step_collection(blocks, width, memory, budget, order)
        }
    };
    // Document 02, U4: "every accepted call, format too, leaves the list true."
    if reply.number == 0 {
        keep_list_true(blocks, memory, &a_before);
    }
    reply
}
