//! Collection in small steps: the mark map, the list, the opening, the steps and the close. While a call steps, what is listed stands
//! as bits, and a cursor goes up over them: a step looks at no block below the lowest one that was listed since.

use super::blocks::{
    clear_extent, first_byte, get_bit, is_first, naming_cells, object_size, set_bit, set_count,
};
use super::references::{free_waiting, let_wait};
use super::sections::mark_unknown;
use super::Lent;
use crate::rules::heap::Ref;

pub fn is_open(m: &Lent) -> bool {
    m.list[m.list.len() - 1] == 1
}

/// How many objects are on the list.
fn held(list: &[Ref]) -> usize {
    let places = &list[..list.len() - 1];
    places.partition_point(|v| *v != 0)
}

fn put_on(list: &mut [Ref], v: Ref) {
    let n = held(list);
    let at = list[..n].partition_point(|other| *other < v);
    list.copy_within(at..n, at + 1);
    list[at] = v;
}

/// Marks and lists the object that v names, if it is unmarked.
pub fn meet(m: &mut Lent, v: Ref) {
    if v == 0 || get_bit(m.marks, v as usize - 1) == 1 {
        return;
    }
    set_bit(m.marks, v as usize - 1, 1);
    put_on(m.list, v);
}

/// Owner, old and new object of a store, while a collection is open.
pub fn meet_store(m: &mut Lent, owner: Ref, old: Ref, new: Ref) {
    if is_open(m) && old != new {
        for v in [owner, old, new] {
            meet(m, v);
        }
    }
}

/// A freed object leaves map and list.
pub fn forget(m: &mut Lent, i: usize) {
    if get_bit(m.marks, i) == 0 {
        return;
    }
    set_bit(m.marks, i, 0);
    let n = held(m.list);
    if let Ok(at) = m.list[..n].binary_search(&(i as Ref + 1)) {
        m.list.copy_within(at + 1..n, at);
        m.list[n - 1] = 0;
    }
}

pub fn open(m: &mut Lent) {
    let last = m.list.len() - 1;
    m.list[last] = 1;
    for r in 0..m.roots.len() {
        meet(m, m.roots[r]);
    }
}

/// Number 13.
pub fn is_untidy(blocks: usize, m: &Lent) -> bool {
    match m.list[blocks] {
        0 => m.marks.iter().any(|byte| *byte != 0) || m.list.iter().any(|v| *v != 0),
        1 => is_untidy_open(blocks, m),
        _ => true,
    }
}

/// The list as bits, if it is strictly rising, then 0, and names blocks alone.
fn read_list(blocks: usize, list: &[Ref]) -> Option<Vec<u8>> {
    let mut map = vec![0; blocks / 8];
    let mut before = 0;
    for (k, v) in list[..blocks].iter().enumerate() {
        if *v == 0 {
            let none = list[k..blocks].iter().fold(0, |any, v| any | v) == 0;
            return none.then_some(map);
        }
        if *v <= before || blocks < *v as usize {
            return None;
        }
        set_mark(&mut map, *v as usize - 1);
        before = *v;
    }
    Some(map)
}

/// The list as bits, then the maps byte by byte, then roots and cells.
fn is_untidy_open(blocks: usize, m: &Lent) -> bool {
    let Some(listed) = read_list(blocks, m.list) else {
        return true;
    };
    let mut found = 0;
    for (k, (marks, listed)) in m.marks.iter().zip(&listed).enumerate() {
        found |= (marks & !first_byte(m.a, m.b, k)) | (listed & !marks);
    }
    let is_unmarked = |v: &Ref| *v != 0 && get_bit(m.marks, *v as usize - 1) == 0;
    if found != 0 || m.roots.iter().any(is_unmarked) {
        return true;
    }
    for (k, (marks, listed)) in m.marks.iter().zip(&listed).enumerate() {
        let mut left = marks & !listed;
        while left != 0 {
            let i = 8 * k + left.trailing_zeros() as usize;
            let cells = naming_cells(m.data, i, object_size(blocks, m.b, i));
            if m.cells[4 * i..4 * i + cells].iter().any(is_unmarked) {
                return true;
            }
            left &= left - 1;
        }
    }
    false
}

/// The steps taken, and the blocks freed.
pub struct Stepped {
    pub steps: usize,
    pub freed: usize,
}

/// Bit i of the map becomes 1.
fn set_mark(map: &mut [u8], i: usize) {
    map[i / 8] |= 1 << (i % 8);
}

/// The blocks of one flag.
const SECTION: usize = 256;

/// What is listed, as bits: with flags of sections, where one that is not set has none; how many are listed; and a block below which none is.
struct Listed {
    map: Vec<u8>,
    flags: Vec<bool>,
    count: usize,
    from: usize,
}

impl Listed {
    fn of(list: &[Ref]) -> Listed {
        let blocks = list.len() - 1;
        let mut listed = Listed {
            map: vec![0; blocks / 8],
            flags: vec![true; blocks.div_ceil(SECTION)],
            count: held(list),
            from: 0,
        };
        for v in &list[..listed.count] {
            set_mark(&mut listed.map, *v as usize - 1);
        }
        listed
    }

    /// The lowest one from a block on among those of its section.
    fn lowest_in_section(&self, from: usize) -> Option<usize> {
        let end = ((from / SECTION + 1) * (SECTION / 8)).min(self.map.len());
        let own = self.map[from / 8] >> (from % 8);
        if own != 0 {
            return Some(from + own.trailing_zeros() as usize);
        }
        let k = (from / 8 + 1..end).find(|k| self.map[*k] != 0)?;
        Some(8 * k + self.map[k].trailing_zeros() as usize)
    }

    /// Takes the lowest one off, of which there are some.
    fn take_lowest(&mut self) -> usize {
        let mut from = self.from;
        loop {
            if self.flags[from / SECTION] {
                if let Some(i) = self.lowest_in_section(from) {
                    self.map[i / 8] -= 1 << (i % 8);
                    self.count -= 1;
                    self.from = i;
                    return i;
                }
                self.flags[from / SECTION] = false;
            }
            from = (from / SECTION + 1) * SECTION;
        }
    }

    fn put(&mut self, i: usize) {
        set_mark(&mut self.map, i);
        self.flags[i / SECTION] = true;
        self.count += 1;
        self.from = self.from.min(i);
    }

    /// Byte by byte, into a list that is cleared first.
    fn write(&self, list: &mut [Ref]) {
        let blocks = list.len() - 1;
        list[..blocks].fill(0);
        let mut place = 0;
        for (k, byte) in self.map.iter().enumerate() {
            let mut left = *byte;
            while left != 0 {
                list[place] = (8 * k) as Ref + left.trailing_zeros() as Ref + 1;
                place += 1;
                left &= left - 1;
            }
        }
    }
}

/// At most so many steps on an undamaged heap with a cleared waiting list, and the close where the list is empty then.
pub fn take_steps(blocks: usize, width: usize, m: &mut Lent, budget: usize) -> Stepped {
    let mut listed = Listed::of(m.list);
    let mut steps = 0;
    while steps < budget && 0 < listed.count {
        let i = listed.take_lowest();
        let cells = naming_cells(m.data, i, object_size(blocks, m.b, i));
        for v in &m.cells[4 * i..4 * i + cells] {
            if *v != 0 && get_bit(m.marks, *v as usize - 1) == 0 {
                set_mark(m.marks, *v as usize - 1);
                listed.put(*v as usize - 1);
            }
        }
        steps += 1;
    }
    if 0 < budget && listed.count == 0 {
        let freed = close(blocks, width, m);
        return Stepped { steps, freed };
    }
    if 0 < steps {
        listed.write(m.list);
    }
    Stepped { steps, freed: 0 }
}

/// Frees what is unmarked and counts down the survivors that it named, once for each cell; then those that wait.
fn close(blocks: usize, width: usize, m: &mut Lent) -> usize {
    let mut freed = 0;
    let mut top = 0;
    for i in 0..blocks {
        if is_first(blocks, m.a, m.b, i) && get_bit(m.marks, i) == 0 {
            let n = object_size(blocks, m.b, i);
            let cells = naming_cells(m.data, i, n);
            for j in 4 * i..4 * i + cells {
                let v = m.cells[j];
                if v != 0 && get_bit(m.marks, v as usize - 1) == 1 {
                    top = let_wait(blocks, width, m, v, top);
                }
            }
            clear_extent(m.a, m.b, i, n);
            mark_unknown(blocks, m.sections, i, n);
            m.cells[4 * i..4 * i + 4 * n].fill(0);
            set_bit(m.data, i, 0);
            set_count(m.counts, blocks / 8, width, i, 0);
            freed += n;
        }
    }
    // None of what waits names anything unmarked: the map and the list go first.
    m.marks.fill(0);
    m.list.fill(0);
    freed + free_waiting(blocks, width, m, top)
}
