//! The search for the lowest free chunk as it was before request U3, kept to be compared with: first whether any
//! chunk is free, by the or-tree, then which is the lowest.

use super::blocks::get_bit;

fn chunk_is_free(a: &[u8], at: usize, size: usize) -> bool {
    if size == 1 {
        return get_bit(a, at) == 0;
    }
    let half = size / 2;
    chunk_is_free(a, at, half) && chunk_is_free(a, at + half, half)
}

fn some_chunk_free(blocks: usize, a: &[u8], size: usize) -> bool {
    let mut at = 0;
    while at < blocks {
        if get_bit(a, at) == 0 && chunk_is_free(a, at, size) {
            return true;
        }
        at += size;
    }
    false
}

fn lowest_chunk(blocks: usize, a: &[u8], size: usize) -> usize {
    let mut at = 0;
    'chunks: loop {
        if blocks <= at {
            break at;
        }
        for i in 0..size {
            if get_bit(a, at + i) != 0 {
                at += size;
                continue 'chunks;
            }
        }
        break at;
    }
}

/// The first block of the lowest free chunk, or `blocks`.
pub fn search_in_two_passes(a: &[u8], blocks: usize, size: usize) -> usize {
    if !some_chunk_free(blocks, a, size) {
        return blocks;
    }
    lowest_chunk(blocks, a, size)
}
