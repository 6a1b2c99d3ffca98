//! What no root reaches, by what holds it: the split that tables over count widths show.

use super::run::{run_records, Run};
use crate::rules::calls::{apply, Call};
use crate::rules::collection::reached;
use crate::rules::heap::{
    capacity, count, first_blocks, named, reference_places, size, Memory, MAX_BLOCKS,
};
use std::collections::{BTreeMap, BTreeSet};

/// The first blocks of the objects that no root reaches. README.md, "How many count bits are enough", has the words quoted.
#[derive(Clone, Debug, Default, PartialEq, Eq)]
pub struct Garbage {
    /// Held by stuck counts alone: "counts without a limit would have freed it"
    pub stuck: BTreeSet<usize>,
    /// Held by cycles alone: "no stuck garbage leads to it"
    pub cycles: BTreeSet<usize>,
    /// Held by both: "it is stuck itself, or a stuck object of garbage leads to it"
    pub both: BTreeSet<usize>,
}

/// The garbage of an undamaged heap. What README.md takes away object by object is found here by what leads where: it is all
/// that is neither on a cycle of garbage nor behind one.
pub fn garbage(blocks: usize, width: usize, memory: &Memory) -> Garbage {
    let reached = reached(blocks, memory);
    let unreached: BTreeSet<usize> = first_blocks(blocks, memory)
        .into_iter()
        .filter(|first| !reached.contains(first))
        .collect();
    let led_to: BTreeMap<usize, BTreeSet<usize>> = unreached
        .iter()
        .map(|first| (*first, led_to(blocks, memory, *first, &unreached)))
        .collect();
    let on_a_cycle = |first: &&usize| led_to[first].contains(first);
    let is_stuck = |first: &&usize| count(blocks, width, memory, **first) == capacity(width);
    let behind = |first: &usize| led_to[first].iter().copied();
    // What is on a cycle leads to itself.
    let by_cycles: BTreeSet<usize> = unreached
        .iter()
        .filter(on_a_cycle)
        .flat_map(behind)
        .collect();
    let stuck_ones: BTreeSet<usize> = unreached.iter().filter(is_stuck).copied().collect();
    let mut by_stuck = stuck_ones.clone();
    by_stuck.extend(stuck_ones.iter().flat_map(behind));
    Garbage {
        stuck: unreached.difference(&by_cycles).copied().collect(),
        cycles: by_cycles.difference(&by_stuck).copied().collect(),
        both: by_cycles.intersection(&by_stuck).copied().collect(),
    }
}

/// The objects of a set that one leads to, over one reference or more. Itself only where it is on a cycle.
fn led_to(blocks: usize, memory: &Memory, from: usize, among: &BTreeSet<usize>) -> BTreeSet<usize> {
    let mut found = BTreeSet::new();
    let mut to_follow = vec![from];
    while let Some(owner) = to_follow.pop() {
        for v in &memory.cells[reference_places(blocks, memory, owner)] {
            if let Some(first) = named(blocks, memory, *v) {
                if among.contains(&first) && found.insert(first) {
                    to_follow.push(first);
                }
            }
        }
    }
    found
}

/// The blocks of these objects together.
pub fn blocks_of(blocks: usize, memory: &Memory, objects: &BTreeSet<usize>) -> usize {
    objects
        .iter()
        .map(|first| size(blocks, memory, *first))
        .sum()
}

impl Garbage {
    /// Each part's objects and blocks, as the texts have them: `objects blocks | objects blocks | objects blocks`.
    pub fn text(&self, blocks: usize, memory: &Memory) -> String {
        [&self.stuck, &self.cycles, &self.both]
            .map(|part| format!("{} {}", part.len(), blocks_of(blocks, memory, part)))
            .join(" | ")
    }
}

/// The line of a history on a new heap of so many blocks, with counts of so many bits and so many roots, and its garbage at the
/// end on a second line. None where there is no such heap.
pub fn left([blocks, width, roots]: [usize; 3], history: &[u8]) -> Option<String> {
    if blocks > MAX_BLOCKS || width > 4 || roots > 64 {
        return None;
    }
    let mut memory = Memory::zeros(blocks, width, roots);
    if apply(blocks, width, &mut memory, Call::Format).number != 0 {
        return None;
    }
    let (_, run) = run_records(blocks, width, &mut memory, Run::default(), history);
    let parts = garbage(blocks, width, &memory).text(blocks, &memory);
    Some(format!("{}{parts}\n", run.line()))
}
