//! Sections: the largest size available in each stretch of the heap (document 02, U4).

use crate::rules::chunks::{lowest_free_chunk, lowest_free_chunk_between};
use crate::rules::heap::{is_allocated, section_count, section_length, Memory, Ref};

/// "the size of its largest free aligned chunk, 0 if none", of the s blocks from a multiple of s on, s a power of two.
///
/// Document 01: "A chunk of one block is free when its A bit is 0; a larger one when both of its halves are." Every smaller
/// chunk lies in one of the halves.
pub fn largest_free_chunk(memory: &Memory, start: usize, s: usize) -> usize {
    if s == 1 {
        return usize::from(!is_allocated(memory, start));
    }
    let half = s / 2;
    let lower = largest_free_chunk(memory, start, half);
    let upper = largest_free_chunk(memory, start + half, half);
    if lower == half && upper == half {
        s
    } else {
        lower.max(upper)
    }
}

/// The figure of section k.
pub fn figure(blocks: usize, memory: &Memory, k: usize) -> Ref {
    let length = section_length(blocks);
    largest_free_chunk(memory, k * length, length) as Ref
}

/// The true list: the figure of each section.
pub fn figures(blocks: usize, memory: &Memory) -> Vec<Ref> {
    (0..section_count(blocks))
        .map(|k| figure(blocks, memory, k))
        .collect()
}

/// "leaves the list true", whatever stood there.
pub fn leave_list_true(blocks: usize, memory: &mut Memory) {
    memory.sections = figures(blocks, memory);
}

/// The same of a list that was true of this A-map before: the figure of a section whose blocks are as they were is too.
pub fn keep_list_true(blocks: usize, memory: &mut Memory, a_before: &[u8]) {
    let bytes = section_length(blocks) / 8;
    for k in 0..section_count(blocks) {
        let section = k * bytes..(k + 1) * bytes;
        if memory.a[section.clone()] != a_before[section] {
            memory.sections[k] = figure(blocks, memory, k);
        }
    }
}

/// Where an allocation goes by the list: "Allocation of at most a section's length goes to the lowest section whose figure
/// suffices. Longer ones search as before."
///
/// No call of the model asks it. "For every heap the address, or the lack of one, must be that of document 01": that it is
/// so is a claim (section_claims.rs).
pub fn lowest_by_sections(blocks: usize, memory: &Memory, s: usize) -> Option<usize> {
    let length = section_length(blocks);
    if s > length {
        return lowest_free_chunk(blocks, memory, s);
    }
    let suffices = |figure: &Ref| *figure as usize >= s;
    let k = memory.sections.iter().position(suffices)?;
    lowest_free_chunk_between(memory, k * length, (k + 1) * length, s)
}
