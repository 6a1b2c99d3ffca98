//! A heap that owns its buffers.

use crate::lent::{self, Reply, Shared, Unique};
use crate::{Ref, Refusal, SoFar};
use crate::{
    MAX_BLOCKS, MAX_ROOTS, MAX_SECTION, MAX_WIDTH, REPORT_BLOCKS, REPORT_ROOTS, REPORT_WIDTH,
};

/// The ten buffers of a heap, as [`lent`](crate::lent) has them. Two are equal where all but the waiting lists are: that
/// list is working space.
#[derive(Clone, Debug, Default)]
pub struct Buffers {
    /// The A-map.
    pub a: Vec<u8>,
    /// The B-map.
    pub b: Vec<u8>,
    /// The count maps.
    pub counts: Vec<u8>,
    /// The cells.
    pub cells: Vec<Ref>,
    /// The roots.
    pub roots: Vec<Ref>,
    /// The waiting list.
    pub waiting: Vec<Ref>,
    /// The size of the largest free chunk of each section.
    pub sections: Vec<Ref>,
    /// The D-map.
    pub data: Vec<u8>,
    /// The mark map.
    pub marks: Vec<u8>,
    /// The second list.
    pub list: Vec<Ref>,
}

impl PartialEq for Buffers {
    fn eq(&self, other: &Buffers) -> bool {
        let Buffers {
            a,
            b,
            counts,
            cells,
            roots,
            waiting: _,
            sections,
            data,
            marks,
            list,
        } = self;
        (a, b, counts, cells, roots, sections, data, marks, list)
            == (
                &other.a,
                &other.b,
                &other.counts,
                &other.cells,
                &other.roots,
                &other.sections,
                &other.data,
                &other.marks,
                &other.list,
            )
    }
}

impl Eq for Buffers {}

/// A heap of some number of blocks, with counts of some width. Format, both allocations, both stores, the return, collect,
/// steps, both lists of calls and runs of records leave `waiting` all 0, and `sections` as it must be, when accepted; the opening
/// of a collection writes `marks` and `list` and nothing else; the write of a number changes one cell and nothing else; check,
/// look, free blocks, the read of a number, the reason and the shape write nothing. Two heaps are equal where blocks, width and all
/// buffers but the waiting lists are; what the roots of both reach is the same, wherever it lies, where their shapes are equal.
#[derive(Clone, Debug, PartialEq, Eq)]
#[must_use = "a heap does nothing by itself"]
pub struct Heap {
    blocks: usize,
    width: usize,
    buffers: Buffers,
}

/// What a look at an object finds.
#[derive(Clone, Copy, Debug, PartialEq, Eq, Hash)]
pub struct Look {
    /// The object's size in blocks.
    pub size: usize,
    /// Its count.
    pub count: usize,
}

/// What an allocation does.
#[derive(Clone, Copy, Debug, PartialEq, Eq, Hash)]
pub struct Allocated {
    /// The first block of the new object.
    pub block: usize,
    /// Whether it is stuck: at width 1 every object is born so.
    pub became_stuck: bool,
}

/// What a store of a reference does.
#[derive(Clone, Copy, Debug, PartialEq, Eq, Hash)]
pub struct Stored {
    /// The number of blocks freed.
    pub freed: usize,
    /// Whether this very store brought the count of the object that it stored to the capacity, at which it is stuck.
    pub became_stuck: bool,
}

/// What steps of a collection do.
#[derive(Clone, Copy, Debug, PartialEq, Eq, Hash)]
pub struct Stepped {
    /// The number of steps taken: the budget, unless the list ran out.
    pub steps: usize,
    /// The number of blocks freed, by the close.
    pub freed: usize,
}

impl Heap {
    /// A formatted heap: blocks is a power of two from 8 to [`MAX_BLOCKS`], the width 1 to 4, and there are 1 to 64
    /// roots. Refusals: 1.
    pub fn new(blocks: usize, width: usize, roots: usize) -> Result<Heap, Refusal> {
        // Numbers that are too large are refused by the library; no buffers of that size are made for it.
        let most = blocks.min(MAX_BLOCKS);
        let bytes = most / 8;
        let buffers = Buffers {
            a: vec![0; bytes],
            b: vec![0; bytes],
            counts: vec![0; width.min(MAX_WIDTH) * bytes],
            cells: vec![0; 4 * most],
            roots: vec![0; roots.min(MAX_ROOTS + 1)],
            waiting: vec![0; most],
            sections: vec![0; (most / MAX_SECTION).max(1)],
            data: vec![0; bytes],
            marks: vec![0; bytes],
            list: vec![0; most + 1],
        };
        let mut heap = Heap::from_buffers(blocks, width, buffers);
        heap.format()?;
        Ok(heap)
    }

    /// A formatted heap such as the program `report` has.
    pub fn of_report() -> Heap {
        Heap::new(REPORT_BLOCKS, REPORT_WIDTH, REPORT_ROOTS).expect("the program has a good shape")
    }

    /// A heap of given buffers, which may hold anything: every call tests them.
    pub fn from_buffers(blocks: usize, width: usize, buffers: Buffers) -> Heap {
        Heap {
            blocks,
            width,
            buffers,
        }
    }

    /// The number of blocks.
    #[must_use]
    pub fn blocks(&self) -> usize {
        self.blocks
    }

    /// The count width, in bits.
    #[must_use]
    pub fn width(&self) -> usize {
        self.width
    }

    /// The roots, each 0 or 1 + the first block of an object.
    #[must_use]
    pub fn roots(&self) -> &[Ref] {
        &self.buffers.roots
    }

    /// The size of the largest free chunk of each section, 0 where it has none: a section is 256 blocks, or all of them
    /// where there are fewer, and a chunk is s blocks starting at a multiple of s, s a power of two.
    #[must_use]
    pub fn sections(&self) -> &[Ref] {
        &self.buffers.sections
    }

    /// The D-map: 1 on the first block of each object made as data, 0 everywhere else. Block i is bit i % 8 (bit 0 is the
    /// least) of byte i / 8.
    #[must_use]
    pub fn data(&self) -> &[u8] {
        &self.buffers.data
    }

    /// The mark map: while a collection is open, 1 on the first block of each object that it has met; else all 0. Its bits
    /// stand as those of the D-map.
    #[must_use]
    pub fn marks(&self) -> &[u8] {
        &self.buffers.marks
    }

    /// The second list: 1 + the first blocks of the marked objects that a collection has still to look at, strictly rising,
    /// then 0s; the last place is 1 while one is open and else 0.
    #[must_use]
    pub fn list(&self) -> &[Ref] {
        &self.buffers.list
    }

    /// Whether a collection in small steps is open.
    #[must_use]
    pub fn is_open(&self) -> bool {
        self.buffers.list.get(self.blocks) == Some(&1)
    }

    /// The buffers as they are.
    #[must_use]
    pub fn buffers(&self) -> &Buffers {
        &self.buffers
    }

    /// The buffers, given back.
    #[must_use]
    pub fn into_buffers(self) -> Buffers {
        self.buffers
    }

    /// Makes an empty heap of whatever the buffers held: b is all ones, each number of sections the blocks of a section,
    /// every other buffer all 0. Refusals: 1.
    pub fn format(&mut self) -> Result<(), Refusal> {
        value(lent::format(self.unique())).map(|_| ())
    }

    /// Tests the whole heap. Refusals: 1, 2, 11, 13.
    pub fn check(&self) -> Result<(), Refusal> {
        value(lent::check(self.shared())).map(|_| ())
    }

    /// Allocates n blocks into root r. Refusals: 1, 2, 11, 13, 3, 4, 5.
    pub fn allocate(&mut self, n: usize, r: usize) -> Result<Allocated, Refusal> {
        allocated(lent::allocate(self.unique(), n, r))
    }

    /// Stores v in root r. Where the root holds v already, nothing but the waiting list is written. Refusals: 1, 2, 11, 13, 4, 8.
    pub fn store_root(&mut self, r: usize, v: usize) -> Result<Stored, Refusal> {
        stored(lent::store_root(self.unique(), r, v))
    }

    /// Stores v in cell j of the object at block `at`. Where the cell holds v already, nothing but the waiting list is
    /// written. Refusals: 1, 2, 11, 13, 6, 7, 12, 8.
    pub fn store_cell(&mut self, at: usize, j: usize, v: usize) -> Result<Stored, Refusal> {
        stored(lent::store_cell(self.unique(), at, j, v))
    }

    /// Clears the roots of a set, bit r of `chosen` for root r, as stores of 0 do one after another. The value is
    /// the number of blocks freed in all. Refusals: 1, 2, 11, 13, 4.
    pub fn return_roots(&mut self, chosen: u64) -> Result<usize, Refusal> {
        value(lent::return_roots(self.unique(), chosen))
    }

    /// Frees the objects that no root reaches, and counts the references of the others anew. The value is the
    /// number of blocks freed. Refusals: 1, 2, 11, 13, 14.
    pub fn collect(&mut self) -> Result<usize, Refusal> {
        value(lent::collect(self.unique()))
    }

    /// Looks at the object at block `at`: its size in blocks and its count. Refusals: 1, 2, 11, 13, 6.
    pub fn look(&self, at: usize) -> Result<Look, Refusal> {
        let reply = lent::look(self.shared(), at);
        let size = value(reply)?;
        Ok(Look {
            size,
            count: reply.second,
        })
    }

    /// Counts the free blocks. The value is their number. Refusals: 1, 2, 11, 13.
    pub fn free_blocks(&self) -> Result<usize, Refusal> {
        value(lent::free_blocks(self.shared()))
    }

    /// Allocates n blocks of data into root r, as [`allocate`](Heap::allocate) does. The cells are 0, and hold any number.
    /// Refusals: 1, 2, 11, 13, 3, 4, 5.
    pub fn allocate_data(&mut self, n: usize, r: usize) -> Result<Allocated, Refusal> {
        allocated(lent::allocate_data(self.unique(), n, r))
    }

    /// Writes v into cell j of the data at block `at`, and changes nothing else. Refusals: 1, 2, 11, 13, 6, 7, 12.
    pub fn write_number(&mut self, at: usize, j: usize, v: Ref) -> Result<(), Refusal> {
        value(lent::write_number(self.unique(), at, j, v)).map(|_| ())
    }

    /// Reads cell j of the data at block `at`. Refusals: 1, 2, 11, 13, 6, 7, 12.
    pub fn read_number(&self, at: usize, j: usize) -> Result<Ref, Refusal> {
        // The value is what a cell holds.
        value(lent::read_number(self.shared(), at, j)).map(|number| number as Ref)
    }

    /// Opens a collection in small steps: marks and lists every object that a root names, and changes nothing else.
    /// Refusals: 1, 2, 11, 13, 14 (one is open).
    pub fn open_collection(&mut self) -> Result<(), Refusal> {
        value(lent::open_collection(self.unique())).map(|_| ())
    }

    /// Takes at most `budget` steps of the open collection, one for each object that it takes off the list, and closes it where
    /// the list is empty then and the budget is not 0: [`lent::step_collection`] states how. Refusals: 1, 2, 11, 13, 14 (none
    /// is open).
    pub fn step_collection(&mut self, budget: usize) -> Result<Stepped, Refusal> {
        let reply = lent::step_collection(self.unique(), budget);
        let steps = value(reply)?;
        Ok(Stepped {
            steps,
            freed: reply.second,
        })
    }

    /// Why the object at block `at` is kept, as a sentence with a line end: a chain, `root 1 cell 2 block 4`, of the fewest
    /// links, the lowest root and the lowest cells; or `no root reaches block 4`. [`lent::reason`] states it, and
    /// [`read_reason`](crate::read_reason) reads it back. Refusals: 1, 2, 11, 13, 6.
    pub fn reason(&self, at: usize) -> Result<String, Refusal> {
        let mut output = vec![0; lent::reason_length(self.blocks.min(MAX_BLOCKS))];
        let length = value(lent::reason(self.shared(), at, &mut output))?;
        output.truncate(length);
        Ok(output.into_iter().map(char::from).collect())
    }

    /// The shape of what the roots reach, as a list of numbers: [`lent::shape`] states it. Two heaps have equal ones exactly
    /// where reached objects can be paired one to one, keeping roots, sizes, D bits, references and data.
    /// Refusals: 1, 2, 11, 13.
    pub fn shape(&self) -> Result<Vec<u32>, Refusal> {
        let roots = self.buffers.roots.len().min(MAX_ROOTS);
        let mut output = vec![0; lent::shape_length(self.blocks.min(MAX_BLOCKS), roots)];
        let length = value(lent::shape(self.shared(), &mut output))?;
        output.truncate(length);
        Ok(output)
    }

    /// Copies what the roots reach into another heap, which may have other numbers of blocks and another width: into a formatted
    /// one, whatever stood there, in the order of the shape's numbers, each object to the lowest free chunk then, so that free
    /// blocks lie together again. Both then have one shape. The value is the number of blocks in use in the other heap.
    /// [`lent::copy`] states it. Refusals, which change neither: 1, 2, 11, 13, 14, 17.
    pub fn copy_into(&self, second: &mut Heap) -> Result<usize, Refusal> {
        value(lent::copy(self.shared(), second.unique()))
    }

    /// Formats the heap and runs a list of calls, in the form that [`lent::replay`] states; their replies go to `replies`,
    /// three words each. The value is the number of calls. Refusals, which write nothing: 1, 10, 9, 18.
    pub fn replay(&mut self, calls: &[u64], replies: &mut [u64]) -> Result<usize, Refusal> {
        value(lent::replay(self.unique(), calls, replies))
    }

    /// Makes a list of calls, in the form that [`lent::replay`] states, on the heap as it stands, which is tested once; their
    /// replies go to `replies`, three words each. The value is the number of calls. Refusals, which write nothing: 1, 2, 11, 13,
    /// 10, 9, 18.
    pub fn make_calls(&mut self, calls: &[u64], replies: &mut [u64]) -> Result<usize, Refusal> {
        value(lent::make_calls(self.unique(), calls, replies))
    }

    /// Runs the records of a history, or of a piece of it, from where `run` stands, and answers where it stands then:
    /// [`lent::run_records`] states how. [`Run`](crate::Run) does this for a whole history. Refusals: 1, 2, 11, 13, 19.
    pub fn run_records(&mut self, run: SoFar, bytes: &[u8]) -> Result<SoFar, Refusal> {
        let ran = lent::run_records(self.unique(), run, bytes);
        value(ran.reply).map(|_| ran.run)
    }

    fn shared(&self) -> Shared<'_> {
        Shared {
            blocks: self.blocks,
            width: self.width,
            a: &self.buffers.a,
            b: &self.buffers.b,
            counts: &self.buffers.counts,
            cells: &self.buffers.cells,
            roots: &self.buffers.roots,
            waiting: &self.buffers.waiting,
            sections: &self.buffers.sections,
            data: &self.buffers.data,
            marks: &self.buffers.marks,
            list: &self.buffers.list,
        }
    }

    fn unique(&mut self) -> Unique<'_> {
        Unique {
            blocks: self.blocks,
            width: self.width,
            a: &mut self.buffers.a,
            b: &mut self.buffers.b,
            counts: &mut self.buffers.counts,
            cells: &mut self.buffers.cells,
            roots: &mut self.buffers.roots,
            waiting: &mut self.buffers.waiting,
            sections: &mut self.buffers.sections,
            data: &mut self.buffers.data,
            marks: &mut self.buffers.marks,
            list: &mut self.buffers.list,
        }
    }
}

/// What an accepted allocation did, or the refusal.
fn allocated(reply: Reply) -> Result<Allocated, Refusal> {
    value(reply).map(|block| Allocated {
        block,
        became_stuck: reply.second == 1,
    })
}

/// What an accepted store did, or the refusal.
fn stored(reply: Reply) -> Result<Stored, Refusal> {
    value(reply).map(|freed| Stored {
        freed,
        became_stuck: reply.second == 1,
    })
}

/// The value of an acceptance, or the refusal.
fn value(reply: Reply) -> Result<usize, Refusal> {
    match Refusal::of(reply) {
        None => Ok(reply.value),
        Some(refusal) => Err(refusal),
    }
}
