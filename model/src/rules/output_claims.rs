//! What must hold of reasons (U11) and shapes (U13), asked in other ways than they are found.

use crate::rules::collection::reached;
use crate::rules::heap::{
    cell_places, first_blocks, is_data, named, reference_places, Memory, Ref,
};
use crate::rules::outputs::{due_reason, due_shape};
use crate::rules::reasons::{chain, read, Chain};
use crate::rules::shapes::met_in_order;
use std::collections::{BTreeMap, BTreeSet};

/// So many chains are written out before the search for the best one among them is given up.
const MOST_CHAINS: usize = 20_000;

/// Every chain of the fewest links to the object at a block, each link of each chain followed: all of no link, then all of one, and
/// so on. None where no root leads there; `Err` where they are too many.
pub fn chains_of_fewest_links(
    blocks: usize,
    memory: &Memory,
    at: usize,
) -> Result<Vec<Chain>, usize> {
    let mut ends: Vec<(Chain, usize)> = Vec::new();
    for (root, v) in memory.roots.iter().enumerate() {
        let cells = Vec::new();
        ends.extend(named(blocks, memory, *v).map(|object| (Chain { root, cells }, object)));
    }
    for _ in 0..blocks {
        let there = ends.iter().filter(|(_, end)| *end == at);
        let there: Vec<Chain> = there.map(|(chain, _)| chain.clone()).collect();
        if !there.is_empty() {
            return Ok(there);
        }
        let mut longer = Vec::new();
        for (chain, end) in &ends {
            let cells = &memory.cells[reference_places(blocks, memory, *end)];
            for (j, v) in cells.iter().enumerate() {
                if let Some(object) = named(blocks, memory, *v) {
                    let mut chain = chain.clone();
                    chain.cells.push(j);
                    longer.push((chain, object));
                }
            }
            if longer.len() > MOST_CHAINS {
                return Err(longer.len());
            }
        }
        ends = longer;
    }
    Ok(Vec::new())
}

/// What was asked, and how often the chains were too many to be written out.
#[derive(Clone, Copy, Debug, Default)]
pub struct Asked {
    pub sentences: usize,
    pub unreached: usize,
    pub longest: usize,
    pub too_many: usize,
    pub shapes: usize,
}

/// The claim that is broken on an undamaged heap, if any.
pub fn broken_output(
    blocks: usize,
    width: usize,
    memory: &Memory,
    asked: &mut Asked,
) -> Option<String> {
    let reached = reached(blocks, memory);
    for at in first_blocks(blocks, memory) {
        let Ok(sentence) = due_reason(blocks, width, memory, at) else {
            return Some(format!("no sentence for the object at {at}"));
        };
        let Some(said) = read(&sentence) else {
            return Some(format!("a sentence that is none, for the object at {at}"));
        };
        asked.sentences += 1;
        asked.unreached += usize::from(said.chain.is_none());
        // "Where there is no chain it is `no root reaches block 4`, and this only then."
        if said.block != at || said.chain.is_some() != reached.contains(&at) {
            return Some(format!(
                "the sentence of {at} says something else: {said:?}"
            ));
        }
        if let Some(chain) = &said.chain {
            asked.longest = asked.longest.max(chain.cells.len());
        }
        // "The chain has the fewest links; among those the lowest root, then the lowest cell at the first difference." Lists of one
        // length compare so.
        match chains_of_fewest_links(blocks, memory, at) {
            Ok(chains) if chains.iter().min() != said.chain.as_ref() => {
                return Some(format!("not the best chain to {at}: {said:?}"));
            }
            Ok(_) => {}
            Err(_) => asked.too_many += 1,
        }
    }
    asked.shapes += 1;
    broken_shape(blocks, width, memory, &reached)
}

/// The claim of U13 that is broken, if any: the numbers, their order, and each place of the list read back.
fn broken_shape(
    blocks: usize,
    width: usize,
    memory: &Memory,
    reached: &BTreeSet<usize>,
) -> Option<String> {
    let met = met_in_order(blocks, memory);
    if met.len() != reached.len() || met.iter().any(|object| !reached.contains(object)) {
        return Some("the numbered objects are not those reached, each once".to_string());
    }
    // An object has a lower number exactly where its best chain has fewer links, or as many and is lower at the first difference.
    let chains: Vec<Option<Chain>> = met.iter().map(|at| chain(blocks, memory, *at)).collect();
    let key = |chain: &Option<Chain>| {
        let chain = chain.clone().expect("reached");
        (chain.cells.len(), chain.root, chain.cells)
    };
    if !chains.windows(2).all(|two| key(&two[0]) < key(&two[1])) {
        return Some(format!(
            "the numbers are not in the order of chains: {met:?}"
        ));
    }
    let Ok(list) = due_shape(blocks, width, memory) else {
        return Some("no shape".to_string());
    };
    let numbers: BTreeMap<usize, u32> = met.iter().copied().zip(1..).collect();
    let number = |v: Ref| {
        if v == 0 {
            0
        } else {
            numbers[&(v as usize - 1)]
        }
    };
    let mut rest = list.into_iter();
    let mut next_is = |due: u32| rest.next() == Some(due);
    let mut same = next_is(memory.roots.len() as u32);
    for v in &memory.roots {
        same &= next_is(number(*v));
    }
    for object in &met {
        let cells = &memory.cells[cell_places(blocks, memory, *object)];
        let data = is_data(memory, *object);
        same &= next_is(cells.len() as u32 / 4) && next_is(u32::from(data));
        for v in cells {
            same &= next_is(if data { *v } else { number(*v) });
        }
    }
    (!same || rest.next().is_some()).then(|| "another list".to_string())
}
