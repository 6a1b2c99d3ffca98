//! Chunks: where an allocation may go.

use crate::rules::heap::{is_allocated, Memory};

/// "Let s be the least power of two that is n or more."
pub fn least_power_of_two(n: usize) -> usize {
    let mut s = 1;
    while s < n {
        s *= 2;
    }
    s
}

/// "A chunk of one block is free when its A bit is 0; a larger one when both of its halves are."
pub fn chunk_is_free(memory: &Memory, start: usize, s: usize) -> bool {
    if s == 1 {
        return !is_allocated(memory, start);
    }
    chunk_is_free(memory, start, s / 2) && chunk_is_free(memory, start + s / 2, s / 2)
}

/// "A chunk is s blocks starting at a multiple of s." "The lowest free chunk of s blocks is taken".
pub fn lowest_free_chunk(blocks: usize, memory: &Memory, s: usize) -> Option<usize> {
    lowest_free_chunk_between(memory, 0, blocks, s)
}

/// The lowest free chunk of s blocks in a part of the heap, which starts at a multiple of s.
pub fn lowest_free_chunk_between(
    memory: &Memory,
    from: usize,
    to: usize,
    s: usize,
) -> Option<usize> {
    let mut start = from;
    while start + s <= to {
        if chunk_is_free(memory, start, s) {
            return Some(start);
        }
        start += s;
    }
    None
}
