//! A heap of 16-byte blocks in bitmaps, with limited reference counts. The work is done by a proved library;
//! this crate lends it buffers and gives its refusals names.
//!
//! [`Heap`] owns its buffers. [`Run`] runs a recorded history on one, from anything that can be read. [`lent`] has the
//! same calls on buffers of the caller's.
//!
//! ```
//! use huwekapo::{Heap, Look, Refusal};
//!
//! // 8 blocks, counts of 2 bits, 4 roots.
//! let mut heap = Heap::new(8, 2, 4)?;
//! assert_eq!(heap.allocate(2, 0)?.block, 0);
//! assert_eq!(heap.allocate(1, 1)?.block, 2);
//! assert_eq!(heap.allocate(3, 2)?.block, 4);
//! assert_eq!(heap.look(4)?, Look { size: 3, count: 1 });
//!
//! // Blocks 3 and 7 are free, but no two of them together.
//! assert_eq!(heap.allocate(2, 3), Err(Refusal::NoChunk));
//! assert_eq!(
//!     Refusal::NoChunk.to_string(),
//!     "5: no chunk is free: a chunk is s blocks starting at a multiple of s, s the least power of two that is \
//!      n or more"
//! );
//! assert_eq!(heap.free_blocks()?, 2);
//! assert_eq!(heap.sections(), [1]);
//!
//! // Clearing root 2 lets go of the object at block 4. A third reference sticks the one at block 0.
//! assert_eq!(heap.store_root(2, 0)?.freed, 3);
//! assert!(!heap.store_root(2, 1)?.became_stuck);
//! assert!(heap.store_root(3, 1)?.became_stuck);
//!
//! // A pixel buffer: its cells hold any number, and no reference.
//! let pixels = heap.allocate_data(3, 2)?.block;
//! heap.write_number(pixels, 11, 4_294_967_295)?;
//! assert_eq!(heap.read_number(pixels, 11), Ok(4_294_967_295));
//! assert_eq!(heap.store_cell(pixels, 0, 0), Err(Refusal::WrongKind));
//!
//! // A collection in small steps. The object at block 0 is stuck, and no root names it any more.
//! assert_eq!(heap.return_roots(0b1001)?, 0);
//! heap.open_collection()?;
//! let mut freed = 0;
//! while heap.is_open() {
//!     freed += heap.step_collection(1)?.freed;
//! }
//! assert_eq!(freed, 2);
//! assert_eq!(heap.look(0), Err(Refusal::NoObject));
//!
//! // Why an object is kept, and what the heap means wherever its objects lie.
//! let owner = heap.allocate(1, 0)?.block;
//! heap.store_cell(owner, 3, 1 + pixels)?;
//! heap.store_root(2, 0)?;
//! assert_eq!(heap.reason(pixels)?, format!("root 0 cell 3 block {pixels}\n"));
//! assert_eq!(heap.shape()?[..11], [4, 1, 2, 0, 0, 1, 0, 0, 0, 0, 3]);
//! # Ok::<(), Refusal>(())
//! ```

#![warn(missing_docs)]

mod foreign;
mod heap;
mod history;
pub mod lent;
mod reason;
mod record;
mod refusal;
mod run;

pub use heap::{Allocated, Buffers, Heap, Look, Stepped, Stored};
pub use history::{SoFar, Stopped, Tally};
pub use reason::{read_reason, Reason};
pub use record::Record;
pub use refusal::{Damage, Refusal};
pub use run::{Run, RunError};

/// A cell or root: 0, or 1 + the first block of an object. A cell of data holds any number.
pub type Ref = u32;

/// The largest heap, in blocks. What is beyond this or the next two is refused by the library.
pub const MAX_BLOCKS: usize = 65_536;

/// The widest count, in bits.
pub const MAX_WIDTH: usize = 4;

/// The most roots.
pub const MAX_ROOTS: usize = 64;

/// The blocks of a section; a smaller heap is one section.
pub const MAX_SECTION: usize = 256;

/// The blocks of the program `report`'s heap.
pub const REPORT_BLOCKS: usize = 4096;

/// The count width of the program `report`'s heap.
pub const REPORT_WIDTH: usize = 3;

/// The roots of the program `report`'s heap.
pub const REPORT_ROOTS: usize = 64;

/// The version of this crate, and of the library that it is for.
pub const VERSION: &str = env!("CARGO_PKG_VERSION");

/// The version of the library that is linked, 1,000,000 for each major number, 1,000 for each minor one and the patch; and
/// the number of buffers that its calls take.
#[must_use]
pub fn linked() -> (usize, usize) {
    // Safe: neither takes anything.
    unsafe { (foreign::huwekapo_version(), foreign::huwekapo_buffers()) }
}

/// Whether the library that is linked is the one that this crate is for: to another one the arguments mean something else.
#[must_use]
pub fn is_this_library() -> bool {
    let mut numbers = VERSION
        .split('.')
        .map(|part| part.parse().unwrap_or(usize::MAX));
    let (version, buffers) = linked();
    let parts = [version / 1_000_000, version / 1000 % 1000];
    parts.iter().all(|part| numbers.next() == Some(*part)) && buffers == lent::BUFFERS
}
