//! The lent heap: ten buffers of plain numbers, and how blocks, counts and objects are read off them.
//!
//! The number of blocks and the count width are arguments everywhere; the number of roots is the length of
//! the list of roots. All functions but `misshapen` are for memories that aren't misshapen.

/// Document 02, U12: "Cells, roots and working lists become 32-bit numbers, and so do data words, U4's figures and U6's number."
pub type Ref = u32;

/// The largest of these numbers.
pub const MAX_NUMBER: Ref = Ref::MAX;

/// U12: "16,384 to 65,536 blocks are now accepted and 131,072 is refused 1."
pub const MAX_BLOCKS: usize = 65_536;

/// The ten lent buffers.
#[derive(Clone, Debug, Default, PartialEq, Eq, Hash)]
pub struct Memory {
    /// "A-map, N/8 bytes: 1 is allocated, 0 is free."
    pub a: Vec<u8>,
    /// "B-map, N/8 bytes: 0 stands on the last block of each object and 1 everywhere else."
    pub b: Vec<u8>,
    /// "The count maps lie one after another in one buffer of w × N/8 bytes, the least significant bit first."
    pub counts: Vec<u8>,
    /// "Cells: 4 × N unsigned .. numbers, cells 4i to 4i + 3 for block i."
    pub cells: Vec<Ref>,
    /// "Roots: unsigned .. numbers, filled as cells are."
    pub roots: Vec<Ref>,
    /// "Waiting list: N unsigned .. numbers of working space."
    pub waiting: Vec<Ref>,
    /// Document 02, U4: "An added lent list of .. numbers, one for each section, holds the size of its largest free aligned
    /// chunk, 0 if none."
    pub sections: Vec<Ref>,
    /// Document 02, U6: "A new D-map of N/8 bytes has 1 on the first block of an object made as data."
    pub data: Vec<u8>,
    /// Document 02, U8: "a new mark map of N/8 bytes".
    pub marks: Vec<u8>,
    /// Document 02, U8: "The list has N + 1 numbers ..: 1 + first blocks, strictly rising, then 0s, the last place being 1 while
    /// a collection is open and else 0."
    pub list: Vec<Ref>,
}

impl Memory {
    /// Ten buffers of zeros, of the lengths that belong to these numbers. It isn't a formatted heap.
    pub fn zeros(blocks: usize, width: usize, roots: usize) -> Memory {
        Memory {
            a: vec![0; blocks / 8],
            b: vec![0; blocks / 8],
            counts: vec![0; width * blocks / 8],
            cells: vec![0; 4 * blocks],
            roots: vec![0; roots],
            waiting: vec![0; blocks],
            sections: vec![0; section_count(blocks)],
            data: vec![0; blocks / 8],
            marks: vec![0; blocks / 8],
            list: vec![0; blocks + 1],
        }
    }

    /// The same byte and the same number everywhere.
    pub fn fill(&mut self, byte: u8, number: Ref) {
        for map in [
            &mut self.a,
            &mut self.b,
            &mut self.counts,
            &mut self.data,
            &mut self.marks,
        ] {
            map.fill(byte);
        }
        for list in [
            &mut self.cells,
            &mut self.roots,
            &mut self.waiting,
            &mut self.sections,
            &mut self.list,
        ] {
            list.fill(number);
        }
    }

    /// "Where two heaps or two outcomes are compared, the waiting list is left out."
    pub fn same_but_for_waiting(&self, other: &Memory) -> bool {
        self.a == other.a
            && self.b == other.b
            && self.counts == other.counts
            && self.cells == other.cells
            && self.roots == other.roots
            && self.sections == other.sections
            && self.data == other.data
            && self.marks == other.marks
            && self.list == other.list
    }
}

/// Document 02, U4: "Sections are 256 blocks, or N if N is smaller."
pub fn section_length(blocks: usize) -> usize {
    blocks.min(256)
}

/// "one for each section": up to 256 blocks are one section.
pub const fn section_count(blocks: usize) -> usize {
    match blocks / 256 {
        0 => 1,
        sections => sections,
    }
}

/// "1 if N, w, the number of roots or any buffer's length is not as above." "Lengths and numbers of roots that later
/// requests fix fall under 1 too, in every call that takes them".
pub fn misshapen(blocks: usize, width: usize, memory: &Memory) -> bool {
    // "N is the number of blocks, a power of two from 8 to" the largest heap.
    if !blocks.is_power_of_two() || !(8..=MAX_BLOCKS).contains(&blocks) {
        return true;
    }
    // "w is the count width, 1 to 4 bits."
    if !(1..=4).contains(&width) {
        return true;
    }
    // "There are 1 to 64 roots."
    if !(1..=64).contains(&memory.roots.len()) {
        return true;
    }
    memory.a.len() != blocks / 8
        || memory.b.len() != blocks / 8
        || memory.counts.len() != width * (blocks / 8)
        || memory.cells.len() != 4 * blocks
        || memory.waiting.len() != blocks
        || memory.sections.len() != section_count(blocks)
        || memory.data.len() != blocks / 8
        || memory.marks.len() != blocks / 8
        || memory.list.len() != blocks + 1
}

/// "Block i is bit i mod 8 (bit 0 is the least) of byte i div 8 of a bitmap."
pub fn bit(map: &[u8], i: usize) -> u8 {
    (map[i / 8] >> (i % 8)) & 1
}

/// Writes the bit of block i.
pub fn set_bit(map: &mut [u8], i: usize, value: u8) {
    map[i / 8] &= !(1 << (i % 8));
    map[i / 8] |= value << (i % 8);
}

/// "The capacity is 2^w − 1."
pub fn capacity(width: usize) -> usize {
    2usize.pow(width as u32) - 1
}

/// The number that stands in the count maps at block i, whether or not an object starts there.
pub fn count(blocks: usize, width: usize, memory: &Memory, i: usize) -> usize {
    let mut number = 0;
    for k in 0..width {
        let map = &memory.counts[k * (blocks / 8)..(k + 1) * (blocks / 8)];
        number += bit(map, i) as usize * 2usize.pow(k as u32);
    }
    number
}

/// Writes a number into the count maps at block i.
pub fn set_count(blocks: usize, width: usize, memory: &mut Memory, i: usize, number: usize) {
    for k in 0..width {
        let map = &mut memory.counts[k * (blocks / 8)..(k + 1) * (blocks / 8)];
        set_bit(map, i, (number / 2usize.pow(k as u32) % 2) as u8);
    }
}

/// "A-map: 1 is allocated, 0 is free."
pub fn is_allocated(memory: &Memory, i: usize) -> bool {
    bit(&memory.a, i) == 1
}

/// "A first block is an allocated block that is block 0, or follows a free block, or follows a block whose
/// B bit is 0." No number from N on is a block.
pub fn is_first_block(blocks: usize, memory: &Memory, i: usize) -> bool {
    i < blocks
        && is_allocated(memory, i)
        && (i == 0 || !is_allocated(memory, i - 1) || bit(&memory.b, i - 1) == 0)
}

/// "Its object runs to the first 0 in the B-map from there." The size is the number of its blocks.
/// (With no 0 left it runs to the end; such a heap is damaged, of kind 2 or before.)
pub fn size(blocks: usize, memory: &Memory, first: usize) -> usize {
    let mut last = first;
    while last + 1 < blocks && bit(&memory.b, last) == 1 {
        last += 1;
    }
    last + 1 - first
}

/// The first blocks of all objects, in order.
pub fn first_blocks(blocks: usize, memory: &Memory) -> Vec<usize> {
    (0..blocks)
        .filter(|i| is_first_block(blocks, memory, *i))
        .collect()
}

/// "A cell is 0, or 1 + the first block of an object." The object that a cell or root names, if it names one.
pub fn named(blocks: usize, memory: &Memory, v: Ref) -> Option<usize> {
    if v == 0 {
        return None;
    }
    let first = v as usize - 1;
    is_first_block(blocks, memory, first).then_some(first)
}

/// The places of an object's cells in the list of cells: "Cells of an object are numbered from 0 to
/// 4 × size − 1, beginning with the first cell of its first block."
pub fn cell_places(blocks: usize, memory: &Memory, first: usize) -> std::ops::Range<usize> {
    4 * first..4 * (first + size(blocks, memory, first))
}

/// U6: "A new D-map of N/8 bytes has 1 on the first block of an object made as data." The bit is asked for at the first blocks
/// of objects alone.
pub fn is_data(memory: &Memory, first: usize) -> bool {
    bit(&memory.data, first) == 1
}

/// The places of an object's references. "Its cells hold any .. number, are never followed, counted or checked as
/// references": data has none.
pub fn reference_places(blocks: usize, memory: &Memory, first: usize) -> std::ops::Range<usize> {
    if is_data(memory, first) {
        return 0..0;
    }
    cell_places(blocks, memory, first)
}

/// "the value is the number of 0 bits in the A-map"
pub fn free_count(blocks: usize, memory: &Memory) -> usize {
    let bytes = memory.a[..blocks / 8].iter();
    bytes.map(|byte| byte.count_zeros() as usize).sum()
}
