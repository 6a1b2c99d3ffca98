//! The shape test and the damage kinds, by bytes. A heap that is shaped has whole bytes: the library's loops over the blocks after the
//! last whole byte have no turn there, and are left out.

use super::blocks::{
    chunk_size, first_byte, full_byte, get_bit, is_in_data, object_size, some_byte,
};
use super::sections::{is_stale, section_length};
use super::steps::is_untidy;
use super::{acceptance, refusal, Answer, Lent};
use crate::rules::heap::{Ref, MAX_BLOCKS};

pub fn is_shaped(blocks: usize, width: usize, m: &Lent) -> bool {
    let mut power = 8;
    while power < MAX_BLOCKS && power != blocks {
        power *= 2;
    }
    power == blocks
        && (1..=4).contains(&width)
        && (1..=64).contains(&m.roots.len())
        && m.a.len() == blocks / 8
        && m.b.len() == blocks / 8
        && m.counts.len() == width * (blocks / 8)
        && m.cells.len() == 4 * blocks
        && m.waiting.len() == blocks
        && m.sections.len() == blocks / section_length(blocks)
        && m.data.len() == blocks / 8
        && m.marks.len() == blocks / 8
        && m.list.len() == blocks + 1
}

/// Kind 1, eight blocks at a time.
fn has_end_on_free(a: &[u8], b: &[u8]) -> bool {
    let mut found = 0;
    for (a, b) in a.iter().zip(b) {
        found |= !(a | b);
    }
    found != 0
}

pub fn is_free_or_past(blocks: usize, a: &[u8], i: usize) -> bool {
    blocks <= i || get_bit(a, i) == 0
}

/// Kind 2 in all bytes but the last: each is held to itself and the next.
fn open_end_in(a: &[u8], b: &[u8]) -> bool {
    let mut found = 0;
    for (two, b) in a.windows(2).zip(b) {
        let next = (two[0] >> 1) | (two[1] << 7);
        found |= (two[0] & b) & !next;
    }
    found != 0
}

/// Kind 2: by bytes, then the last eight blocks one by one.
fn has_open_end(blocks: usize, a: &[u8], b: &[u8]) -> bool {
    if open_end_in(a, b) {
        return true;
    }
    for i in blocks - 8..blocks {
        if get_bit(a, i) != 0 && get_bit(b, i) != 0 && is_free_or_past(blocks, a, i + 1) {
            return true;
        }
    }
    false
}

/// Kind 3 of the objects that start at the blocks of byte k which are the bits of `these`.
fn has_unaligned_of(blocks: usize, b: &[u8], k: usize, these: u8) -> bool {
    let mut left = these;
    while left != 0 {
        let i = 8 * k + left.trailing_zeros() as usize;
        if i % chunk_size(object_size(blocks, b, i)) != 0 {
            return true;
        }
        left &= left - 1;
    }
    false
}

/// Kind 3 of the objects that start in byte k, where the first blocks are the bits of `first`. Those of up to four blocks within the
/// byte are told by its bits; what has more, or leaves the byte, is measured.
fn has_unaligned_byte(blocks: usize, b: &[u8], k: usize, first: u8) -> bool {
    let two = first & b[k];
    let three = two & (b[k] >> 1);
    if (two & 42) | (three & 4) != 0 {
        return true;
    }
    let five = three & (b[k] >> 2) & (b[k] >> 3);
    has_unaligned_of(blocks, b, k, five | (three & 64) | (two & 128))
}

/// Kind 3, by first blocks.
fn has_unaligned(blocks: usize, a: &[u8], b: &[u8]) -> bool {
    for k in 0..blocks / 8 {
        if has_unaligned_byte(blocks, b, k, first_byte(a, b, k)) {
            return true;
        }
    }
    false
}

/// Which of the 32 cells of the eight blocks of byte k are not 0, as the bits of a word.
fn filled_cells(cells: &[Ref], k: usize) -> u32 {
    let stretch = &cells[32 * k..32 * k + 32];
    if stretch.iter().fold(0, |any, v| any | v) == 0 {
        return 0;
    }
    let mut filled = 0;
    for (j, v) in stretch.iter().enumerate() {
        if *v != 0 {
            filled |= 1 << j;
        }
    }
    filled
}

/// The blocks of data among the eight of byte k, as the bits of a byte; `before` says it of the block before them.
fn data_byte(blocks: usize, m: &Lent, k: usize, before: bool) -> u8 {
    if m.data[k] == 0 {
        if !before {
            return 0;
        }
        if m.a[k] == 255 && first_byte(m.a, m.b, k) == 0 {
            return 255;
        }
    }
    let mut in_data = before;
    let mut made = 0;
    for s in 0..8 {
        in_data = is_in_data(blocks, m.a, m.b, m.data, 8 * k + s, in_data);
        made += u8::from(in_data) << s;
    }
    made
}

/// One more, to 255 at most.
fn one_more(n: u8) -> u8 {
    if n < 255 {
        return n + 1;
    }
    255
}

/// Tallies the cells of byte k, those of data excepted. Whether one stands in a free block or names none.
fn tally_byte(blocks: usize, m: &Lent, k: usize, made: u8, at: &mut [u8]) -> bool {
    if made == 255 {
        return false;
    }
    let mut left = filled_cells(m.cells, k);
    while left != 0 {
        let j = left.trailing_zeros() as usize;
        if (made >> (j / 4)) % 2 == 0 {
            let v = m.cells[32 * k + j] as usize;
            if (m.a[k] >> (j / 4)) % 2 == 0 || blocks < v {
                return true;
            }
            at[v - 1] = one_more(at[v - 1]);
        }
        left &= left - 1;
    }
    false
}

fn tally_cells(blocks: usize, m: &Lent, at: &mut [u8]) -> bool {
    let mut before = false;
    for k in 0..blocks / 8 {
        let made = data_byte(blocks, m, k, before);
        if tally_byte(blocks, m, k, made, at) {
            return true;
        }
        before = 127 < made;
    }
    false
}

fn tally_roots(blocks: usize, roots: &[Ref], at: &mut [u8]) -> bool {
    for v in roots {
        let v = *v as usize;
        if v != 0 {
            if blocks < v {
                return true;
            }
            at[v - 1] = one_more(at[v - 1]);
        }
    }
    false
}

/// A 1 in each byte of a word; bit n in byte n; and all bits but the highest of each byte.
const ONES: u64 = 0x0101_0101_0101_0101;
const DIAGONAL: u64 = 0x8040_2010_0804_0201;
const LOW_BITS: u64 = 0x7f7f_7f7f_7f7f_7f7f;

/// The bits of a byte as the bytes of a word.
fn lanes(x: u8) -> u64 {
    let kept = (x as u64 * ONES) & DIAGONAL;
    ((kept + LOW_BITS) >> 7) & ONES
}

fn mask(x: u8) -> u64 {
    lanes(x) * 255
}

/// The tallies of the eight blocks of byte k as the bytes of a word.
fn tallies(at: &[u8], k: usize) -> u64 {
    let b = &at[8 * k..8 * k + 8];
    u64::from_le_bytes([b[0], b[1], b[2], b[3], b[4], b[5], b[6], b[7]])
}

/// Byte k of a map of the counts; 0 where there are fewer maps.
fn plane_byte(counts: &[u8], bytes: usize, width: usize, plane: usize, k: usize) -> u8 {
    if plane < width {
        return counts[plane * bytes + k];
    }
    0
}

/// The counts of the eight blocks of byte k as the bytes of a word.
fn count_lanes(counts: &[u8], bytes: usize, width: usize, k: usize) -> u64 {
    let lane = |plane| lanes(plane_byte(counts, bytes, width, plane, k));
    lane(0) + lane(1) * 2 + lane(2) * 4 + lane(3) * 8
}

/// Whether one of the eight blocks of byte k has a count that is damage: where an object starts and where a count is not 0 must be
/// the same, and a count below capacity must be the tally's.
fn is_off(first: u8, counts: &[u8], bytes: usize, width: usize, k: usize, at: &[u8]) -> bool {
    if some_byte(counts, bytes, width, k) != first {
        return true;
    }
    if first == 0 {
        return false;
    }
    let kept = mask(first & !full_byte(counts, bytes, width, k));
    tallies(at, k) & kept != count_lanes(counts, bytes, width, k) & kept
}

/// Kinds 4 and 5, or 0: all references are tallied, and a tally where no object starts tells one that names none.
fn reference_kind(blocks: usize, width: usize, m: &Lent) -> usize {
    let mut at = vec![0; blocks];
    if tally_cells(blocks, m, &mut at) || tally_roots(blocks, m.roots, &mut at) {
        return 4;
    }
    let bytes = blocks / 8;
    let mut off = false;
    for k in 0..bytes {
        let first = first_byte(m.a, m.b, k);
        if tallies(&at, k) & mask(!first) != 0 {
            return 4;
        }
        if is_off(first, m.counts, bytes, width, k, &at) {
            off = true;
        }
    }
    if off {
        return 5;
    }
    0
}

/// Kind 7, eight blocks at a time.
fn has_stray_data(blocks: usize, a: &[u8], b: &[u8], data: &[u8]) -> bool {
    let mut found = 0;
    for (k, byte) in data[..blocks / 8].iter().enumerate() {
        found |= byte & !first_byte(a, b, k);
    }
    found != 0
}

/// The first damage kind that applies, or 0.
fn damage_kind(blocks: usize, width: usize, m: &Lent) -> usize {
    if has_end_on_free(m.a, m.b) {
        return 1;
    }
    if has_open_end(blocks, m.a, m.b) {
        return 2;
    }
    if has_unaligned(blocks, m.a, m.b) {
        return 3;
    }
    let kind = reference_kind(blocks, width, m);
    if kind != 0 {
        return kind;
    }
    if has_stray_data(blocks, m.a, m.b, m.data) {
        return 7;
    }
    0
}

/// Numbers 1, 2, 11 and 13.
pub fn check(blocks: usize, width: usize, m: &Lent) -> Answer {
    check_with(damage_kind, blocks, width, m)
}

/// The same, with a search for damage of its own.
pub fn check_with(
    damage_kind: impl Fn(usize, usize, &Lent) -> usize,
    blocks: usize,
    width: usize,
    m: &Lent,
) -> Answer {
    if !is_shaped(blocks, width, m) {
        return refusal(1);
    }
    let kind = damage_kind(blocks, width, m);
    if kind != 0 {
        return Answer {
            number: 2,
            value: kind,
            second: 0,
        };
    }
    if is_stale(blocks, m.a, m.sections) {
        return refusal(11);
    }
    if is_untidy(blocks, m) {
        return refusal(13);
    }
    acceptance(0)
}
