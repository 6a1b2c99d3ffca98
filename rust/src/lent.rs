//! The calls on buffers that the caller lends. The heap's ten buffers, with their lengths in elements:
//!
//! ```text
//! a         blocks / 8 bytes           A-map: 1 is allocated, 0 is free
//! b         blocks / 8 bytes           B-map: 0 on the last block of each object, 1 everywhere else
//! counts    width * blocks / 8 bytes   count maps, the least significant bit first
//! cells     4 * blocks numbers         cells 4i to 4i + 3 for block i: 0, or 1 + the first block of an object; of an
//!                                      object made as data any number
//! roots     1 to 64 numbers            0, or 1 + the first block of an object
//! waiting   blocks numbers             working space
//! sections  blocks / 256 numbers       the size of the largest free chunk of each section, 0 where it has none
//! data      blocks / 8 bytes           D-map: 1 on the first block of each object made as data, 0 everywhere else
//! marks     blocks / 8 bytes           mark map: while a collection is open, 1 on the first block of each object it has met
//! list      blocks + 1 numbers         1 + the first blocks of the marked objects that it has still to look at, strictly
//!                                      rising, then 0s; the last place is 1 while a collection is open and else 0
//! ```
//!
//! A number is a [`Ref`], of 32 bits. blocks is a power of two from 8 to [`MAX_BLOCKS`](crate::MAX_BLOCKS); width, the count
//! width, is 1 to 4 bits. Block i is bit i % 8 (bit 0 is the least) of byte i / 8 of a map. A chunk is s blocks starting at a
//! multiple of s, s a power of two. A section is 256 blocks; below 256 blocks it is all of them, and `sections` is one number.
//!
//! Every call may be made with any arguments and any content of the buffers: what is wrong is refused by a number,
//! and a refusal changes no buffer. Arguments are whole words, and nothing of them is cut off: a v of 2^32 + 1 is
//! refused 8. Only the number that is written into data is as wide as a cell: any such number is right. Format, both
//! allocations, both stores, the return, collect, steps, both lists of calls and runs of records leave `waiting` all 0, and
//! `sections` as it must be, when accepted; the opening of a collection writes `marks` and `list` and nothing else; the write of a number
//! changes one cell and nothing else; check, look, free blocks and the read of a number write nothing; the reason and the
//! shape write nothing but their output.
//!
//! The cells of data are never followed, counted or checked as references, whatever they hold. What roots and cells name
//! may be data. When data is freed, its cells become 0, and its D bit too.
//!
//! A collection is made at once by collect, or in small steps: it is opened, stepped, and closes in the call of steps that
//! leaves the list empty. While one is open, every call but collect and a second opening may be made. Objects are born marked
//! then. A store that changes a value, an allocation's too, marks and lists what is unmarked among the object written to, the
//! old and the new one; clearing a freed object's cells marks and lists the unmarked ones that they named; a freed object
//! leaves both. While none is open, `marks` and `list` are all 0. Nothing that a root leads to is ever freed. What no root led
//! to at the opening, and none of those objects of a later store was or led to, is gone at the close. The steps from the
//! opening to the close are at most the objects present at the opening.

use crate::{foreign, Ref, SoFar};

/// The number of buffers.
pub const BUFFERS: usize = 10;

/// A number and its values. `number` is 0 where the call was accepted, else the first that applies of the refusals
/// that the call names, in the order in which it names them. A refusal carries value 0, or the damage kind for
/// number 2. `second` is the count that a look finds, or the number of blocks that accepted steps freed; of an accepted
/// allocation, of data too, or of an accepted store of a reference it is 1 where this call brought the count of the object that
/// it stores to the capacity, at which the object is stuck, and 0 where not. Else it is 0.
///
/// [`Refusal`](crate::Refusal) has the words of the numbers.
#[repr(C)]
#[derive(Clone, Copy, Debug, PartialEq, Eq, Hash)]
#[must_use = "the call may have been refused"]
pub struct Reply {
    /// 0, or the number of the refusal.
    pub number: usize,
    /// What the call names as its value; of a refusal 0, or the damage kind.
    pub value: usize,
    /// The count that a look finds; the blocks that steps freed; 1 where an allocation or a store made an object stuck.
    pub second: usize,
}

/// The reply of a run of records, and where the run stands then.
#[repr(C)]
#[derive(Clone, Copy, Debug, PartialEq, Eq, Hash)]
#[must_use = "the run may have been refused, or have stopped"]
pub struct Ran {
    /// The reply.
    pub reply: Reply,
    /// Where the run stands; all 0 in a refusal.
    pub run: SoFar,
}

/// What a text says, as [`read_reason`] found.
#[repr(C)]
#[derive(Clone, Copy, Debug, PartialEq, Eq, Hash)]
#[must_use = "the text may be no sentence"]
pub struct Reading {
    /// 0: no sentence of [`reason`], or one with a number above 4,294,967,295. 1: a chain. 2: no root reaches the block. 3: a
    /// chain of more links than there was room for.
    pub kind: usize,
    /// Of a chain, its root.
    pub root: usize,
    /// Of a chain, how many links are followed.
    pub links: usize,
    /// Of a sentence, the block.
    pub block: usize,
}

/// Outputs that are long enough for the [`reason`] of any object in a heap of so many blocks, in bytes.
#[must_use]
pub fn reason_length(blocks: usize) -> usize {
    blocks.saturating_mul(12).saturating_add(8)
}

/// Outputs that are long enough for the [`shape`] of any heap of so many blocks and roots, in numbers.
#[must_use]
pub fn shape_length(blocks: usize, roots: usize) -> usize {
    blocks
        .saturating_mul(6)
        .saturating_add(roots)
        .saturating_add(1)
}

/// The ten buffers, to be read.
#[derive(Clone, Copy, Debug)]
pub struct Shared<'a> {
    /// The number of blocks.
    pub blocks: usize,
    /// The count width, in bits.
    pub width: usize,
    /// The A-map.
    pub a: &'a [u8],
    /// The B-map.
    pub b: &'a [u8],
    /// The count maps.
    pub counts: &'a [u8],
    /// The cells.
    pub cells: &'a [Ref],
    /// The roots.
    pub roots: &'a [Ref],
    /// The waiting list.
    pub waiting: &'a [Ref],
    /// The size of the largest free chunk of each section.
    pub sections: &'a [Ref],
    /// The D-map.
    pub data: &'a [u8],
    /// The mark map.
    pub marks: &'a [u8],
    /// The second list.
    pub list: &'a [Ref],
}

/// The ten buffers, to be written.
#[derive(Debug)]
pub struct Unique<'a> {
    /// The number of blocks.
    pub blocks: usize,
    /// The count width, in bits.
    pub width: usize,
    /// The A-map.
    pub a: &'a mut [u8],
    /// The B-map.
    pub b: &'a mut [u8],
    /// The count maps.
    pub counts: &'a mut [u8],
    /// The cells.
    pub cells: &'a mut [Ref],
    /// The roots.
    pub roots: &'a mut [Ref],
    /// The waiting list.
    pub waiting: &'a mut [Ref],
    /// The size of the largest free chunk of each section.
    pub sections: &'a mut [Ref],
    /// The D-map.
    pub data: &'a mut [u8],
    /// The mark map.
    pub marks: &'a mut [u8],
    /// The second list.
    pub list: &'a mut [Ref],
}

/// Calls a function of the library with the blocks, the width, each buffer as a pointer and a length, and
/// further arguments.
// Safe for every one of them: each has no precondition, reads and writes the slices only within their lengths,
// and keeps no pointer. The slices are good for the call and, where they are written, not shared.
macro_rules! lend {
    ($call:ident, $heap:expr, $pointer:ident, $roots:ident, $marks:ident $(, $argument:expr)*) => {{
        let heap = $heap;
        unsafe {
            foreign::$call(
                heap.blocks,
                heap.width,
                heap.a.$pointer(),
                heap.a.len(),
                heap.b.$pointer(),
                heap.b.len(),
                heap.counts.$pointer(),
                heap.counts.len(),
                heap.cells.$pointer(),
                heap.cells.len(),
                heap.roots.$roots(),
                heap.roots.len(),
                heap.waiting.$pointer(),
                heap.waiting.len(),
                heap.sections.$pointer(),
                heap.sections.len(),
                heap.data.$pointer(),
                heap.data.len(),
                heap.marks.$marks(),
                heap.marks.len(),
                heap.list.$marks(),
                heap.list.len(),
                $($argument),*
            )
        }
    }};
}

/// Makes an empty heap of whatever the buffers held: b is all ones, each number of sections the blocks of a section,
/// every other buffer all 0. The value is 0. Refusals: 1.
pub fn format(heap: Unique) -> Reply {
    lend!(huwekapo_format, heap, as_mut_ptr, as_mut_ptr, as_mut_ptr)
}

/// Tests the whole heap. The value is 0. Refusals: 1, 2, 11, 13.
pub fn check(heap: Shared) -> Reply {
    lend!(huwekapo_check, heap, as_ptr, as_ptr, as_ptr)
}

/// Allocates n blocks into root r. The value is the first block, `second` whether the new object is stuck, as it is at
/// width 1. Refusals: 1, 2, 11, 13, 3, 4, 5.
pub fn allocate(heap: Unique, n: usize, r: usize) -> Reply {
    lend!(
        huwekapo_allocate,
        heap,
        as_mut_ptr,
        as_mut_ptr,
        as_mut_ptr,
        n,
        r
    )
}

/// Stores v in root r. The value is the number of blocks freed, `second` whether the object that v names became stuck.
/// Refusals: 1, 2, 11, 13, 4, 8.
pub fn store_root(heap: Unique, r: usize, v: usize) -> Reply {
    lend!(
        huwekapo_store_root,
        heap,
        as_mut_ptr,
        as_mut_ptr,
        as_mut_ptr,
        r,
        v
    )
}

/// Stores v in cell j of the object at block `at`. The value is the number of blocks freed, `second` whether the object
/// that v names became stuck. Refusals: 1, 2, 11, 13, 6, 7, 12, 8.
pub fn store_cell(heap: Unique, at: usize, j: usize, v: usize) -> Reply {
    lend!(
        huwekapo_store_cell,
        heap,
        as_mut_ptr,
        as_ptr,
        as_mut_ptr,
        at,
        j,
        v
    )
}

/// Clears the roots of a set, bit r of `chosen` for root r, as stores of 0 do one after another. The value is the
/// number of blocks freed in all. Refusals: 1, 2, 11, 13, 4.
pub fn return_roots(heap: Unique, chosen: u64) -> Reply {
    lend!(
        huwekapo_return_roots,
        heap,
        as_mut_ptr,
        as_mut_ptr,
        as_mut_ptr,
        chosen
    )
}

/// Frees the objects that no root reaches, and counts the references of the others anew. The value is the number of
/// blocks freed. Refusals: 1, 2, 11, 13, 14.
pub fn collect(heap: Unique) -> Reply {
    lend!(huwekapo_collect, heap, as_mut_ptr, as_ptr, as_ptr)
}

/// Looks at the object at block `at`. The value is its size in blocks, `second` its count. Refusals: 1, 2, 11, 13, 6.
pub fn look(heap: Shared, at: usize) -> Reply {
    lend!(huwekapo_look, heap, as_ptr, as_ptr, as_ptr, at)
}

/// Counts the free blocks. The value is their number. Refusals: 1, 2, 11, 13.
pub fn free_blocks(heap: Shared) -> Reply {
    lend!(huwekapo_free_blocks, heap, as_ptr, as_ptr, as_ptr)
}

/// Allocates n blocks of data into root r, as [`allocate`] does, and with its replies. The cells are 0.
/// Refusals: 1, 2, 11, 13, 3, 4, 5.
pub fn allocate_data(heap: Unique, n: usize, r: usize) -> Reply {
    lend!(
        huwekapo_allocate_data,
        heap,
        as_mut_ptr,
        as_mut_ptr,
        as_mut_ptr,
        n,
        r
    )
}

/// Writes v into cell j of the data at block `at`, and changes nothing else, `waiting` neither. The value is 0.
/// Refusals: 1, 2, 11, 13, 6, 7, 12.
pub fn write_number(heap: Unique, at: usize, j: usize, v: Ref) -> Reply {
    lend!(
        huwekapo_write_number,
        heap,
        as_mut_ptr,
        as_ptr,
        as_ptr,
        at,
        j,
        v
    )
}

/// Reads cell j of the data at block `at`. The value is the number. Refusals: 1, 2, 11, 13, 6, 7, 12.
pub fn read_number(heap: Shared, at: usize, j: usize) -> Reply {
    lend!(huwekapo_read_number, heap, as_ptr, as_ptr, as_ptr, at, j)
}

/// Opens a collection in small steps: marks and lists every object that a root names, and changes nothing else, `waiting`
/// neither. The value is 0. Refusals: 1, 2, 11, 13, 14 (one is open).
pub fn open_collection(heap: Unique) -> Reply {
    lend!(huwekapo_open_collection, heap, as_ptr, as_ptr, as_mut_ptr)
}

/// Takes at most `budget` steps of the open collection, any number. A step takes the lowest object off the list, and marks and
/// lists what its cells name that is unmarked; those of data name nothing. Where the list is empty then, and `budget` is not 0,
/// the collection closes: it frees what is unmarked, counts down the other objects that this named, once for each cell, frees
/// those that come to 0 as a store does, and makes `marks` and `list` all 0. The value is the number of steps taken, which is
/// `budget` unless the list ran out; `second` is the number of blocks freed. Refusals: 1, 2, 11, 13, 14 (none is open).
pub fn step_collection(heap: Unique, budget: usize) -> Reply {
    lend!(
        huwekapo_step_collection,
        heap,
        as_mut_ptr,
        as_ptr,
        as_mut_ptr,
        budget
    )
}

/// Writes why the object at block `at` is kept, as a sentence, in the front of `output`: `root 1 cell 2 block 4`, with `cell J`
/// once for each link followed from the object that the root names, J the cell's number within its owner; or, where no root
/// reaches the object, `no root reaches block 4`. One space parts the words, numbers carry no leading zeros, and a line end
/// closes. The chain has the fewest links; among those the lowest root, then the lowest cell at the first difference. The
/// cells of data are no links. The value is the length in bytes, the line end among them; later bytes of `output` keep their
/// values, and nothing else is written, `waiting` neither. A refusal writes nothing, not even what would fit.
/// Refusals: 1, 2, 11, 13, 6, 15.
pub fn reason(heap: Shared, at: usize, output: &mut [u8]) -> Reply {
    let output_at = output.as_mut_ptr();
    lend!(
        huwekapo_reason,
        heap,
        as_ptr,
        as_ptr,
        as_ptr,
        at,
        output_at,
        output.len()
    )
}

/// Reads any text as a sentence of [`reason`], line end included. The cells of a chain, the one followed first in front, go to
/// the front of `cells`; later numbers keep their values, and where there is no chain, or no room for its cells, nothing is
/// written. Each sentence can be read in only one way.
pub fn read_reason(text: &[u8], cells: &mut [u32]) -> Reading {
    // Safe, as the calls on a heap are.
    unsafe {
        foreign::huwekapo_read_reason(text.as_ptr(), text.len(), cells.as_mut_ptr(), cells.len())
    }
}

/// Writes the shape of what the roots reach as a list of numbers in the front of `output`. Objects are numbered from 1 as
/// first met, breadth first: from root 0 upwards, then from the cells of object 1, of object 2 and so on, each from cell 0
/// upwards. First comes the number of roots, then each root's object number or 0; then, for each object, its size, its D bit
/// and its cells, references as object numbers and data as it is. Two heaps, of any sizes and widths, have equal lists exactly
/// where their reached objects can be paired one to one, keeping roots and their number, sizes, D bits, references and data.
/// The value is how many numbers were written; later ones keep theirs, and nothing else is written, `waiting` neither. A
/// refusal writes nothing. Refusals: 1, 2, 11, 13, 16.
pub fn shape(heap: Shared, output: &mut [u32]) -> Reply {
    let output_at = output.as_mut_ptr();
    lend!(
        huwekapo_shape,
        heap,
        as_ptr,
        as_ptr,
        as_ptr,
        output_at,
        output.len()
    )
}

/// Copies what the roots reach into a second heap: into a heap as [`format`] leaves it, whatever stood there. Its blocks and
/// width may differ; its roots are as many. Objects are copied in the order of [`shape`]'s numbers, each to the lowest free
/// chunk then, with its D bit; references name the copies, and data is as it is. Counts are those that a collection gives at
/// the second heap's width. Both heaps then have one shape; the first is only read, and of the second nothing but blocks, width
/// and lengths is looked at. The value is the number of blocks in use in the second heap. A refusal changes no buffer of
/// either. Refusals: 1 (of either heap, or other numbers of roots), 2, 11, 13 and 14 (a collection is open) of the first heap,
/// 17.
pub fn copy(heap: Shared, second: Unique) -> Reply {
    lend!(
        huwekapo_copy,
        heap,
        as_ptr,
        as_ptr,
        as_ptr,
        second.blocks,
        second.width,
        second.a.as_mut_ptr(),
        second.a.len(),
        second.b.as_mut_ptr(),
        second.b.len(),
        second.counts.as_mut_ptr(),
        second.counts.len(),
        second.cells.as_mut_ptr(),
        second.cells.len(),
        second.roots.as_mut_ptr(),
        second.roots.len(),
        second.waiting.as_mut_ptr(),
        second.waiting.len(),
        second.sections.as_mut_ptr(),
        second.sections.len(),
        second.data.as_mut_ptr(),
        second.data.len(),
        second.marks.as_mut_ptr(),
        second.marks.len(),
        second.list.as_mut_ptr(),
        second.list.len()
    )
}

/// Formats the heap and runs a list of calls, each an entry of four words, a code and arguments:
///
/// ```text
/// 0             format
/// 1             check
/// 2, n, r       allocate
/// 3, r, v       store_root
/// 4, at, j, v   store_cell
/// 5             collect
/// 6, at         look
/// 7             free_blocks
/// 8, chosen     return_roots
/// 9, n, r       allocate_data
/// 10, at, j, v  write_number, v such as a cell holds
/// 11, at, j     read_number
/// 12            open_collection
/// 13, budget    step_collection
/// ```
///
/// Words that a call does not name are not looked at. The reply of call i goes to places 3i, 3i + 1 and 3i + 2 of
/// `replies`; words of `replies` behind the last reply keep their content. The value is the number of calls.
/// Refusals, which write nothing: 1, 10, 9, 18.
///
/// - 10: the list ends inside a call
/// - 9: an entry is no call: its code is above 13, or it writes a number that no cell holds
/// - 18: `replies` is too short for the replies of all calls
pub fn replay(heap: Unique, calls: &[u64], replies: &mut [u64]) -> Reply {
    let (list, replies_at) = (calls.as_ptr(), replies.as_mut_ptr());
    lend!(
        huwekapo_replay,
        heap,
        as_mut_ptr,
        as_mut_ptr,
        as_mut_ptr,
        list,
        calls.len(),
        replies_at,
        replies.len()
    )
}

/// Makes a list of calls, in the form of [`replay`], on the heap as it stands: it is tested once, and no call of the list tests
/// it again. What each call answers and does is what it would by itself, and one that is refused does not end the list. Replies
/// and value are as in [`replay`]. Refusals, which write nothing: 1, 2, 11, 13, 10, 9, 18.
pub fn make_calls(heap: Unique, calls: &[u64], replies: &mut [u64]) -> Reply {
    let (list, replies_at) = (calls.as_ptr(), replies.as_mut_ptr());
    lend!(
        huwekapo_make_calls,
        heap,
        as_mut_ptr,
        as_mut_ptr,
        as_mut_ptr,
        list,
        calls.len(),
        replies_at,
        replies.len()
    )
}

/// Runs the records of a history, or of a piece of it, from where `run` stands. For a whole history that is a new run, on a
/// formatted heap; in pieces, what the piece before it answered and left. A piece has any length, but only the last may end
/// inside a record, since that stops the run. [`Record`](crate::Record) has the form of a record, and the operations:
///
/// ```text
/// 1             allocates the size into d; where no chunk is free the run collects and tries once more
/// 2             copies root s to d
/// 3             writes root s into cell c of the object in d
/// 4             reads cell c of the object in s into d
/// 5             clears d
/// 6             collects
/// 7             allocates the size into d as 1 does, as data
/// 8             writes the number in the size field into cell c of the data in d
/// ```
///
/// Fields that an operation does not name are 0. The first record that is refused stops the run, with the first that applies
/// of 9, 3 (operations 1 and 7), 4, 5 (operations 1 and 7, after the second try), 6 (an empty root where an object is
/// needed), 7, 12 (operations 3 and 4 on data, 8 on what is not), 14 (operation 6 while a collection in steps is open); and so
/// does 10, behind the last whole record. This is no refusal of the call: the number is in the run, and the reply's is 0. While a
/// collection in steps is open, no full one can be forced: none is counted, and 5 stops the run.
///
/// Accepted, the value is 0, and the run answered is where it stands after the bytes. The record that stopped a run has
/// changed nothing, save by a collection that it forced. A run handed in stopped is handed back as it is, and only `waiting`
/// is written.
///
/// Refusals, which change no buffer and answer a run of all 0: 1, 2, 11, 13, 19.
///
/// - 19: the run has more than 4,294,967,295 records, more allocations than records, more blocks than
///   [`MAX_BLOCKS`](crate::MAX_BLOCKS) for each record, more objects that became stuck than records, or more collections than records (one more where its number is
///   not 0)
pub fn run_records(heap: Unique, run: SoFar, bytes: &[u8]) -> Ran {
    lend!(
        huwekapo_run_records,
        heap,
        as_mut_ptr,
        as_mut_ptr,
        as_mut_ptr,
        run,
        bytes.as_ptr(),
        bytes.len()
    )
}
