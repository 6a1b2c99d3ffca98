//! Words of the A-map: block n of 64 is bit n. Free chunks of all sizes are found in them at once.

/// A 1 at the first block of each chunk of 2, 4, 8, 16, 32 and 64 blocks.
const TWOS: u64 = 0x5555_5555_5555_5555;
const FOURS: u64 = 0x1111_1111_1111_1111;
const EIGHTS: u64 = 0x0101_0101_0101_0101;
const SIXTEENS: u64 = 0x0001_0001_0001_0001;
const HALVES: u64 = 0x0000_0001_0000_0001;
const WHOLE: u64 = 1;

pub fn eight_bytes(a: &[u8], i: usize) -> u64 {
    let b = &a[i..i + 8];
    u64::from_le_bytes([b[0], b[1], b[2], b[3], b[4], b[5], b[6], b[7]])
}

/// From the free chunks of `size` blocks those of twice the size.
fn joined(free: u64, size: u64, starts: u64) -> u64 {
    free & (free >> size) & starts
}

/// The same for any size of less than 64 blocks.
pub fn twice(free: u64, size: usize) -> u64 {
    let starts = match size {
        1 => TWOS,
        2 => FOURS,
        4 => EIGHTS,
        8 => SIXTEENS,
        16 => HALVES,
        _ => WHOLE,
    };
    joined(free, size as u64, starts)
}

fn of_eights(eights: u64) -> usize {
    let sixteens = joined(eights, 8, SIXTEENS);
    if sixteens == 0 {
        return 8;
    }
    let halves = joined(sixteens, 16, HALVES);
    if halves == 0 {
        return 16;
    }
    let whole = joined(halves, 32, WHOLE);
    if whole == 0 {
        return 32;
    }
    64
}

/// The figure of 64 blocks, of which those are used whose bit is 1.
pub fn word_figure(used: u64) -> usize {
    let free = !used;
    if free == 0 {
        return 0;
    }
    let twos = joined(free, 1, TWOS);
    if twos == 0 {
        return 1;
    }
    let fours = joined(twos, 2, FOURS);
    if fours == 0 {
        return 2;
    }
    let eights = joined(fours, 4, EIGHTS);
    if eights == 0 {
        return 4;
    }
    of_eights(eights)
}

/// Four words, of 256 blocks one behind the other.
#[derive(Clone, Copy)]
pub struct Four([u64; 4]);

/// The free blocks of the 256 from byte i of the map on.
pub fn free_of_four(a: &[u8], i: usize) -> Four {
    Four([0, 8, 16, 24].map(|k| !eight_bytes(a, i + k)))
}

fn is_none(Four(free): Four) -> bool {
    free[0] | free[1] | free[2] | free[3] == 0
}

fn of_whole(Four(free): Four) -> usize {
    let lower = free[0] != 0 && free[1] != 0;
    let upper = free[2] != 0 && free[3] != 0;
    if lower && upper {
        return 256;
    }
    if lower || upper {
        return 128;
    }
    64
}

/// The figure of 256 blocks, of which those are free whose bit is 1: the sizes go up for all four words together.
pub fn figure_of_four(free: Four) -> usize {
    if is_none(free) {
        return 0;
    }
    let mut chunks = free;
    let mut size = 1;
    while size < 64 {
        let larger = Four(chunks.0.map(|word| twice(word, size)));
        if is_none(larger) {
            return size;
        }
        chunks = larger;
        size += size;
    }
    of_whole(chunks)
}
