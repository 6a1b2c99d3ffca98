//! A sentence that says why an object is kept, read back.

use crate::lent;
use std::fmt;

/// Why an object is kept. Its text is the sentence of [`Heap::reason`](crate::Heap::reason), line end included.
#[derive(Clone, Debug, PartialEq, Eq, Hash)]
pub enum Reason {
    /// A root leads to it: over these cells, each the number within its owner, from the object that the root names on.
    Kept {
        /// The root.
        root: u32,
        /// The cells, the one followed first in front.
        cells: Vec<u32>,
        /// The block of the object.
        block: u32,
    },
    /// No root leads to it.
    Unreached {
        /// The block of the object.
        block: u32,
    },
}

/// Reads a sentence back, line end included; none where the text is none. Each sentence can be read in only one way.
#[must_use]
pub fn read_reason(text: &str) -> Option<Reason> {
    // A link takes seven bytes at least.
    let mut cells = vec![0; text.len() / 7];
    let found = lent::read_reason(text.as_bytes(), &mut cells);
    // What is read has numbers of 32 bits.
    let (root, block) = (found.root as u32, found.block as u32);
    match found.kind {
        0 => None,
        1 => {
            cells.truncate(found.links);
            Some(Reason::Kept { root, cells, block })
        }
        2 => Some(Reason::Unreached { block }),
        kind => unreachable!("the library reads no sentence of kind {kind} where there is room"),
    }
}

impl fmt::Display for Reason {
    fn fmt(&self, f: &mut fmt::Formatter) -> fmt::Result {
        match self {
            Reason::Kept { root, cells, block } => {
                write!(f, "root {root}")?;
                for cell in cells {
                    write!(f, " cell {cell}")?;
                }
                writeln!(f, " block {block}")
            }
            Reason::Unreached { block } => writeln!(f, "no root reaches block {block}"),
        }
    }
}
