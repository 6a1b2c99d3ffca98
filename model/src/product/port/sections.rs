//! Sections: their figures, the marks on those that have to be found anew, and the search by them.

use super::blocks::{get_bit, lowest_chunk, Searched};
use super::words::{eight_bytes, figure_of_four, free_of_four, word_figure};
use crate::rules::heap::{Ref, MAX_NUMBER};

const MAX_SECTION: usize = 256;

/// A figure that no section has: it has to be found anew.
pub const UNKNOWN: Ref = MAX_NUMBER;

pub fn section_length(blocks: usize) -> usize {
    if blocks < MAX_SECTION {
        return blocks;
    }
    MAX_SECTION
}

/// The figure of a chunk from those of its halves, of `half` blocks each.
fn of_halves(lower: usize, upper: usize, half: usize) -> usize {
    if lower < upper {
        return upper;
    }
    if upper == half {
        return half + half;
    }
    lower
}

fn of_word(a: &[u8], at: usize) -> usize {
    word_figure(eight_bytes(a, at / 8))
}

fn of_four_words(a: &[u8], at: usize) -> usize {
    figure_of_four(free_of_four(a, at / 8))
}

fn of_block(a: &[u8], at: usize) -> usize {
    if get_bit(a, at) == 0 {
        return 1;
    }
    0
}

/// By halves, down to one block, or to 64 or 256 blocks at once.
fn largest_free(a: &[u8], at: usize, size: usize) -> usize {
    if size == 256 {
        return of_four_words(a, at);
    }
    if size == 64 {
        return of_word(a, at);
    }
    if size == 1 {
        return of_block(a, at);
    }
    let half = size / 2;
    let lower = largest_free(a, at, half);
    let upper = largest_free(a, at + half, half);
    of_halves(lower, upper, half)
}

fn section_figure(blocks: usize, a: &[u8], s: usize) -> usize {
    let size = section_length(blocks);
    largest_free(a, s * size, size)
}

/// Whether a number of the list differs from its section's figure.
pub fn is_stale(blocks: usize, a: &[u8], sections: &[Ref]) -> bool {
    for (s, number) in sections.iter().enumerate() {
        if *number as usize != section_figure(blocks, a, s) {
            return true;
        }
    }
    false
}

/// Finds the unknown figures anew.
pub fn renew(blocks: usize, a: &[u8], sections: &mut [Ref]) {
    for (s, number) in sections.iter_mut().enumerate() {
        if *number == UNKNOWN {
            *number = section_figure(blocks, a, s) as Ref;
        }
    }
}

/// Marks the sections that an extent touches. A list that isn't lent has none.
pub fn mark_unknown(blocks: usize, sections: &mut [Ref], i: usize, n: usize) {
    let length = section_length(blocks);
    let touched = (i + n - 1) / length + 1;
    for number in sections.iter_mut().take(touched).skip(i / length) {
        *number = UNKNOWN;
    }
}

fn lowest_section(sections: &[Ref], size: usize) -> usize {
    let mut s = 0;
    while s < sections.len() {
        if size <= sections[s] as usize {
            return s;
        }
        s += 1;
    }
    s
}

/// The first block of the lowest free chunk, or `blocks`, with the list true.
pub fn find_chunk(blocks: usize, a: &[u8], sections: &[Ref], size: usize) -> Searched {
    let length = section_length(blocks);
    if length < size {
        return lowest_chunk(a, 0, blocks, size);
    }
    let s = lowest_section(sections, size);
    if s == sections.len() {
        return Searched {
            at: blocks,
            looks: 0,
        };
    }
    lowest_chunk(a, s * length, s * length + length, size)
}
