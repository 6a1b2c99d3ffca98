//! Document 02, U13: the shape of a heap as a list of numbers; and whether two heaps mean the same, decided without it.

use crate::rules::collection::reached;
use crate::rules::heap::{cell_places, is_data, named, reference_places, size, Memory, Ref};
use std::collections::BTreeMap;

/// "Objects are numbered from 1 as first met, breadth first, from root 0 upwards and cell 0 upwards." All roots first, then the
/// cells of object 1, of object 2, and so on. Object k is at place k - 1.
pub fn met_in_order(blocks: usize, memory: &Memory) -> Vec<usize> {
    let mut met: Vec<usize> = Vec::new();
    let mut is_met = vec![false; blocks];
    let mut meet = |met: &mut Vec<usize>, v: Ref| {
        if let Some(object) = named(blocks, memory, v) {
            if !is_met[object] {
                is_met[object] = true;
                met.push(object);
            }
        }
    };
    for v in &memory.roots {
        meet(&mut met, *v);
    }
    let mut looked_at = 0;
    while looked_at < met.len() {
        for v in &memory.cells[reference_places(blocks, memory, met[looked_at])] {
            meet(&mut met, *v);
        }
        looked_at += 1;
    }
    met
}

/// "First comes the number of roots, then each root's object number or 0; then, for each object, size, D bit and cells, references
/// as object numbers." The cells of data are as they are.
pub fn shape(blocks: usize, memory: &Memory) -> Vec<u32> {
    let met = met_in_order(blocks, memory);
    let numbers: BTreeMap<usize, u32> = met.iter().copied().zip(1..).collect();
    let number_of = |v: Ref| named(blocks, memory, v).map_or(0, |object| numbers[&object]);
    let mut list = vec![memory.roots.len() as u32];
    list.extend(memory.roots.iter().map(|v| number_of(*v)));
    for object in &met {
        list.push(size(blocks, memory, *object) as u32);
        list.push(u32::from(is_data(memory, *object)));
        for v in &memory.cells[cell_places(blocks, memory, *object)] {
            list.push(if is_data(memory, *object) {
                *v
            } else {
                number_of(*v)
            });
        }
    }
    list
}

/// One of two heaps that are compared: its blocks and its memory.
type Heap<'a> = (usize, &'a Memory);

/// "reached objects can be paired one to one, keeping roots and their number, sizes, D bits, references and data": a search, which
/// tries every partner for each object in turn. For small heaps.
pub fn can_be_paired(one: Heap, other: Heap) -> bool {
    let (ours, theirs) = (reached(one.0, one.1), reached(other.0, other.1));
    if one.1.roots.len() != other.1.roots.len() || ours.len() != theirs.len() {
        return false;
    }
    let (ours, mut free) = (Vec::from_iter(ours), Vec::from_iter(theirs));
    search(one, other, &ours, &mut free, &mut BTreeMap::new())
}

/// Pairs the objects that are left with the free ones in every way, as long as nothing speaks against what is paired.
fn search(
    one: Heap,
    other: Heap,
    left: &[usize],
    free: &mut Vec<usize>,
    pairs: &mut BTreeMap<usize, usize>,
) -> bool {
    let Some((object, left)) = left.split_first() else {
        return true;
    };
    for k in 0..free.len() {
        let partner = free.remove(k);
        pairs.insert(*object, partner);
        if keeps_all(one, other, pairs) && search(one, other, left, free, pairs) {
            return true;
        }
        pairs.remove(object);
        free.insert(k, partner);
    }
    false
}

/// Whether the pairs made so far keep what they must.
fn keeps_all(one: Heap, other: Heap, pairs: &BTreeMap<usize, usize>) -> bool {
    let keeps_reference =
        |v: Ref, w: Ref| match (named(one.0, one.1, v), named(other.0, other.1, w)) {
            (None, None) => true,
            (Some(object), Some(partner)) => match pairs.get(&object) {
                Some(paired) => *paired == partner,
                None => pairs.values().all(|paired| *paired != partner),
            },
            _ => false,
        };
    let mut roots = one.1.roots.iter().zip(&other.1.roots);
    roots.all(|(v, w)| keeps_reference(*v, *w))
        && pairs.iter().all(|(object, partner)| {
            let data = is_data(one.1, *object);
            let cells = &one.1.cells[cell_places(one.0, one.1, *object)];
            let theirs = &other.1.cells[cell_places(other.0, other.1, *partner)];
            let mut both = cells.iter().zip(theirs);
            // As many cells: as many blocks.
            cells.len() == theirs.len()
                && data == is_data(other.1, *partner)
                && both.all(|(v, w)| {
                    if data {
                        v == w
                    } else {
                        keeps_reference(*v, *w)
                    }
                })
        })
}
