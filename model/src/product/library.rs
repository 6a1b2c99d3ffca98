//! The product: the calls of its C library on the model's memories.

use crate::history::figures::Figures;
use crate::history::Run;
use crate::product::compare::Library;
use crate::rules::answers::Reply;
use crate::rules::calls::Call;
use crate::rules::copies::Sizes;
use crate::rules::heap::Memory;
use crate::rules::reasons::Reading;
use huwekapo::lent::{self, Shared, Unique};
use huwekapo::{SoFar, Tally};

/// What the fuzz compares the model with.
pub const LIBRARY: Library = Library {
    apply,
    replay,
    make_calls,
    run_records,
    reason,
    shape,
    read_reason,
    copy,
};

/// Carries out one call by the library, as `calls::apply` does by the model.
pub fn apply(blocks: usize, width: usize, memory: &mut Memory, call: Call) -> Reply {
    reply_of(match call {
        Call::Format => lent::format(unique(blocks, width, memory)),
        Call::Check => lent::check(shared(blocks, width, memory)),
        Call::Allocate { n, r } => lent::allocate(unique(blocks, width, memory), n, r),
        Call::StoreRoot { r, v } => lent::store_root(unique(blocks, width, memory), r, v),
        Call::StoreCell { a, j, v } => lent::store_cell(unique(blocks, width, memory), a, j, v),
        Call::Collect => lent::collect(unique(blocks, width, memory)),
        Call::Look { a } => lent::look(shared(blocks, width, memory), a),
        Call::FreeBlocks => lent::free_blocks(shared(blocks, width, memory)),
        Call::ReturnRoots { chosen } => lent::return_roots(unique(blocks, width, memory), chosen),
        Call::AllocateData { n, r } => lent::allocate_data(unique(blocks, width, memory), n, r),
        Call::WriteNumber { a, j, v } => lent::write_number(unique(blocks, width, memory), a, j, v),
        Call::ReadNumber { a, j } => lent::read_number(shared(blocks, width, memory), a, j),
        Call::OpenCollection => lent::open_collection(unique(blocks, width, memory)),
        Call::StepCollection { budget } => {
            lent::step_collection(unique(blocks, width, memory), budget)
        }
    })
}

/// Makes a replay by the library, as `replay::replay` does by the model.
pub fn replay(
    blocks: usize,
    width: usize,
    memory: &mut Memory,
    words: &[u64],
    replies: &mut [u64],
) -> Reply {
    reply_of(lent::replay(unique(blocks, width, memory), words, replies))
}

/// Makes a list of calls by the library, as `replay::make_calls` does by the model.
pub fn make_calls(
    blocks: usize,
    width: usize,
    memory: &mut Memory,
    words: &[u64],
    replies: &mut [u64],
) -> Reply {
    let heap = unique(blocks, width, memory);
    reply_of(lent::make_calls(heap, words, replies))
}

/// Makes a run by the library, as `run::run_records` does by the model.
pub fn run_records(
    blocks: usize,
    width: usize,
    memory: &mut Memory,
    run: Run,
    piece: &[u8],
) -> (Reply, Run) {
    let ran = lent::run_records(unique(blocks, width, memory), so_far(run), piece);
    (reply_of(ran.reply), run_of(ran.run))
}

/// Writes a reason by the library, as `outputs::reason` does by the model.
pub fn reason(blocks: usize, width: usize, memory: &Memory, a: usize, output: &mut [u8]) -> Reply {
    reply_of(lent::reason(shared(blocks, width, memory), a, output))
}

/// Writes a shape by the library, as `outputs::shape` does by the model.
pub fn shape(blocks: usize, width: usize, memory: &Memory, output: &mut [u32]) -> Reply {
    reply_of(lent::shape(shared(blocks, width, memory), output))
}

/// Makes a copy by the library, as `copies::copy` does by the model.
pub fn copy(first: Sizes, memory: &Memory, second: Sizes, into: &mut Memory) -> Reply {
    let (blocks, width) = first;
    let (more_blocks, other_width) = second;
    reply_of(lent::copy(
        shared(blocks, width, memory),
        unique(more_blocks, other_width, into),
    ))
}

/// Reads a text by the library, as `reasons::read_reason` does by the model.
pub fn read_reason(text: &[u8], cells: &mut [u32]) -> Reading {
    let reading = lent::read_reason(text, cells);
    Reading {
        kind: reading.kind,
        root: reading.root,
        links: reading.links,
        block: reading.block,
    }
}

fn reply_of(reply: lent::Reply) -> Reply {
    Reply {
        number: reply.number,
        value: reply.value,
        second: reply.second,
    }
}

/// Where a run stands, for the library.
fn so_far(run: Run) -> SoFar {
    let figures = run.figures;
    let mut tally = Tally::default();
    tally.allocations = figures.allocations;
    tally.blocks = figures.blocks;
    tally.largest = figures.largest;
    tally.collections = figures.collections;
    tally.peak = figures.most_in_use;
    tally.stuck = figures.became_stuck;
    SoFar {
        number: run.number,
        records: run.records as usize,
        tally,
    }
}

/// The same back.
fn run_of(so_far: SoFar) -> Run {
    let tally = so_far.tally;
    Run {
        number: so_far.number,
        records: so_far.records as u64,
        figures: Figures {
            allocations: tally.allocations,
            blocks: tally.blocks,
            largest: tally.largest,
            collections: tally.collections,
            most_in_use: tally.peak,
            became_stuck: tally.stuck,
        },
    }
}

/// The memory, lent to be written.
pub fn unique(blocks: usize, width: usize, memory: &mut Memory) -> Unique<'_> {
    Unique {
        blocks,
        width,
        a: &mut memory.a,
        b: &mut memory.b,
        counts: &mut memory.counts,
        cells: &mut memory.cells,
        roots: &mut memory.roots,
        waiting: &mut memory.waiting,
        sections: &mut memory.sections,
        data: &mut memory.data,
        marks: &mut memory.marks,
        list: &mut memory.list,
    }
}

/// The memory, lent to be read.
pub fn shared(blocks: usize, width: usize, memory: &Memory) -> Shared<'_> {
    Shared {
        blocks,
        width,
        a: &memory.a,
        b: &memory.b,
        counts: &memory.counts,
        cells: &memory.cells,
        roots: &memory.roots,
        waiting: &memory.waiting,
        sections: &memory.sections,
        data: &memory.data,
        marks: &memory.marks,
        list: &memory.list,
    }
}
