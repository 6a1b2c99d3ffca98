//! Bits, counts, first blocks, sizes, data, chunks and extents: by bytes where the library goes by bytes.

use super::words::{eight_bytes, twice};
use crate::rules::heap::Ref;

pub fn get_bit(map: &[u8], i: usize) -> u8 {
    (map[i / 8] >> (i % 8)) % 2
}

pub fn set_bit(map: &mut [u8], i: usize, v: u8) {
    let k = i % 8;
    let b = map[i / 8];
    map[i / 8] = b - (((b >> k) % 2) << k) + (v << k);
}

/// The byte with its `count` bits from bit `from` on replaced by v, 0 or 1.
fn fill_byte(byte: u8, from: usize, count: usize, v: u8) -> u8 {
    let mask = (255u8 >> (8 - count)) << from;
    (byte & !mask) | (mask * v)
}

/// Byte by byte, the first and the last by a mask.
fn fill_bits(map: &mut [u8], from: usize, count: usize, v: u8) {
    let mut i = 0;
    while i < count {
        let at = from + i;
        let n = (8 - at % 8).min(count - i);
        map[at / 8] = fill_byte(map[at / 8], at % 8, n, v);
        i += n;
    }
}

pub fn count_zeros(map: &[u8]) -> usize {
    let mut n = 0;
    for byte in map {
        n += 8 - byte.count_ones() as usize;
    }
    n
}

pub fn get_count(counts: &[u8], bytes: usize, width: usize, block: usize) -> u8 {
    let mut count = 0;
    let mut from = 0;
    for k in 0..width {
        let to = from + bytes;
        count += get_bit(&counts[from..to], block) << k;
        from = to;
    }
    count
}

/// The blocks among the eight of byte k whose count is not 0, as the bits of a byte.
pub fn some_byte(counts: &[u8], bytes: usize, width: usize, k: usize) -> u8 {
    let mut some = 0;
    for plane in 0..width {
        some |= counts[plane * bytes + k];
    }
    some
}

/// The blocks among the eight of byte k whose count has every bit 1, as the bits of a byte.
pub fn full_byte(counts: &[u8], bytes: usize, width: usize, k: usize) -> u8 {
    let mut full = 255;
    for plane in 0..width {
        full &= counts[plane * bytes + k];
    }
    full
}

pub fn set_count(counts: &mut [u8], bytes: usize, width: usize, block: usize, value: u8) {
    let mut from = 0;
    for k in 0..width {
        let to = from + bytes;
        set_bit(&mut counts[from..to], block, (value >> k) % 2);
        from = to;
    }
}

pub fn is_first(blocks: usize, a: &[u8], b: &[u8], i: usize) -> bool {
    if blocks <= i || get_bit(a, i) == 0 {
        return false;
    }
    i == 0 || get_bit(a, i - 1) == 0 || get_bit(b, i - 1) == 0
}

/// The first blocks among the eight of byte k, as the bits of a byte.
pub fn first_byte(a: &[u8], b: &[u8], k: usize) -> u8 {
    let own = (a[k] & b[k]) << 1;
    if k == 0 {
        return a[k] & !own;
    }
    let into = own | ((a[k - 1] & b[k - 1]) >> 7);
    a[k] & !into
}

/// A byte at a time, whose 0 is found by the count of trailing zeros of what is not in it.
pub fn object_size(blocks: usize, b: &[u8], i: usize) -> usize {
    let mut at = i;
    while at < blocks {
        let rest = !b[at / 8] >> (at % 8);
        if rest != 0 {
            let last = at + rest.trailing_zeros() as usize;
            if last < blocks {
                return last + 1 - i;
            }
            return blocks - i;
        }
        let step = 8 - at % 8;
        if blocks - at <= step {
            return blocks - i;
        }
        at += step;
    }
    blocks - i
}

pub fn is_reference(blocks: usize, a: &[u8], b: &[u8], v: usize) -> bool {
    v == 0 || is_first(blocks, a, b, v - 1)
}

/// How many cells of the object of n blocks at block i may name others: of data none.
pub fn naming_cells(data: &[u8], i: usize, n: usize) -> usize {
    if get_bit(data, i) == 1 {
        return 0;
    }
    4 * n
}

/// 0 only where the four cells from `from` on are all 0.
pub fn any_of_four(cells: &[Ref], from: usize) -> Ref {
    let four = &cells[from..from + 4];
    four[0] | four[1] | four[2] | four[3]
}

/// Whether block i is a block of data, in a walk from block 0 upwards: `before` says it of the block before it.
pub fn is_in_data(blocks: usize, a: &[u8], b: &[u8], data: &[u8], i: usize, before: bool) -> bool {
    let marked = get_bit(data, i) == 1;
    if before {
        if get_bit(a, i) == 0 {
            return false;
        }
        if !is_first(blocks, a, b, i) {
            return true;
        }
        return marked;
    }
    // After any other block only a first block can be one.
    if marked {
        return is_first(blocks, a, b, i);
    }
    false
}

pub fn chunk_size(n: usize) -> usize {
    let mut size = 1;
    while size < n {
        size *= 2;
    }
    size
}

/// What a search found: the first block of a chunk, or the end of the part searched, and how many blocks it
/// looked at.
#[derive(Clone, Copy, Debug, PartialEq, Eq)]
pub struct Searched {
    pub at: usize,
    pub looks: usize,
}

fn is_judged_free(end: usize, size: usize, stretch: usize) -> bool {
    size <= stretch && end & (size - 1) == 0
}

/// The search by bytes, chunk by chunk where chunks have less than eight blocks.
fn walk_bytes(a: &[u8], from: usize, to: usize, size: usize) -> Searched {
    let mut looks = 0;
    let mut stretch = 0;
    let at = 'bytes: loop {
        if from + looks == to {
            break to;
        }
        let byte = a[(from + looks) / 8];
        if size < 8 && byte != 255 {
            let mut i = 0;
            while i < 8 {
                let chunk = (byte >> i) << (8 - size);
                i += size;
                looks += size;
                if chunk != 0 {
                    stretch = chunk.leading_zeros() as usize;
                    continue;
                }
                stretch += size;
                if is_judged_free(from + looks, size, stretch) {
                    break 'bytes from + looks - size;
                }
            }
            continue 'bytes;
        }
        looks += 8;
        if byte != 0 {
            stretch = byte.leading_zeros() as usize;
            continue 'bytes;
        }
        stretch += 8;
        if is_judged_free(from + looks, size, stretch) {
            break from + looks - size;
        }
    };
    Searched { at, looks }
}

/// The search by words, for chunks of at most 64 blocks: the free chunks of a word are found at once.
fn walk_words(a: &[u8], from: usize, to: usize, size: usize) -> Searched {
    let mut looks = 0;
    let at = 'words: loop {
        if from + looks == to {
            break to;
        }
        let mut free = !eight_bytes(a, (from + looks) / 8);
        let mut s = 1;
        loop {
            if free == 0 {
                looks += 64;
                continue 'words;
            }
            if s == size {
                looks += free.trailing_zeros() as usize + size;
                break 'words from + looks - size;
            }
            free = twice(free, s);
            s += s;
        }
    };
    Searched { at, looks }
}

pub fn lowest_chunk(a: &[u8], from: usize, to: usize, size: usize) -> Searched {
    if size <= 64 && from % 64 == 0 && to % 64 == 0 {
        return walk_words(a, from, to, size);
    }
    walk_bytes(a, from, to, size)
}

pub fn mark_extent(a: &mut [u8], b: &mut [u8], i: usize, n: usize) {
    fill_bits(a, i, n, 1);
    set_bit(b, i + n - 1, 0);
}

pub fn clear_extent(a: &mut [u8], b: &mut [u8], i: usize, n: usize) {
    fill_bits(a, i, n, 0);
    set_bit(b, i + n - 1, 1);
}
