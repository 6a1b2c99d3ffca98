//! Claims about a whole list of calls, checked by brute force on every memory on the way. Like claims.rs they ask
//! what was done, not what should be done.

use crate::rules::answers::Reply;
use crate::rules::calls::Call;
use crate::rules::claims::{all_references, objects, own_reference, written_in, Object};
use crate::rules::heap::{bit, capacity, count, Memory, Ref};
use std::collections::BTreeMap;

/// A call of a list, as it was carried out.
#[derive(Clone, Debug)]
pub struct Step {
    pub before: Memory,
    pub call: Call,
    pub reply: Reply,
    pub after: Memory,
}

/// Document 02, U2: "if an object's count is below the capacity and later, the object living on, stands at it,
/// then some call in between wrote a reference after which, before that call let anything go, the object had at
/// least that many references." What breaks it, if anything does.
///
/// `counted_on` gives the memory of a step in which references are counted: `before_letting_go`.
pub fn unduly_stuck(
    blocks: usize,
    width: usize,
    steps: &[Step],
    counted_on: fn(&Step) -> Memory,
) -> Option<String> {
    let top = capacity(width);
    let after: Vec<_> = steps
        .iter()
        .map(|step| counts(blocks, width, &step.after))
        .collect();
    let filled: Vec<Option<usize>> = steps
        .iter()
        .map(|step| filled_by(blocks, width, step, counted_on))
        .collect();
    for (i, start) in steps.iter().enumerate() {
        for (object, low) in counts(blocks, width, &start.before) {
            if low == top {
                continue;
            }
            // "later, the object living on": the same first block and size after each call.
            for j in i..steps.len() {
                let Some(now) = after[j].get(&object) else {
                    break;
                };
                // "some call in between": then it is among the calls before every later moment too.
                if filled[j] == Some(object.0) {
                    break;
                }
                if *now == top {
                    return Some(format!(
                        "the object at {} stood at {low} before call {i} and at {top} after call {j}",
                        object.0
                    ));
                }
            }
        }
    }
    None
}

/// "before that call let anything go": the memory with the call's own reference written in.
pub fn before_letting_go(step: &Step) -> Memory {
    written_in(&step.before, step.call, step.reply)
}

/// The objects with their counts.
fn counts(blocks: usize, width: usize, memory: &Memory) -> BTreeMap<Object, usize> {
    objects(blocks, memory)
        .into_iter()
        .map(|object| (object, count(blocks, width, memory, object.0)))
        .collect()
}

/// "some call in between wrote a reference after which ... the object had at least that many references": the
/// first block that the call's own value names, if so many references name it, as many as the capacity.
fn filled_by(
    blocks: usize,
    width: usize,
    step: &Step,
    counted_on: fn(&Step) -> Memory,
) -> Option<usize> {
    let v = own_reference(step.call, step.reply)?;
    let all = all_references(blocks, &counted_on(step));
    let number = all.iter().filter(|reference| **reference == v).count();
    (number >= capacity(width)).then_some(v as usize - 1)
}

/// Document 02, U6, over a whole list: an object made as data is data as long as it lives, and each of its cells holds what
/// was last written there, 0 where nothing was. What breaks it, if anything does.
pub fn numbers_lost(blocks: usize, steps: &[Step]) -> Option<String> {
    let mut written: BTreeMap<Object, Vec<Ref>> = BTreeMap::new();
    for (i, step) in steps.iter().enumerate() {
        let stand = objects(blocks, &step.after);
        written.retain(|object, _| stand.contains(object) && step.call != Call::Format);
        if step.reply.number == 0 {
            match step.call {
                Call::AllocateData { n, .. } => {
                    written.insert((step.reply.value, n), vec![0; 4 * n]);
                }
                Call::WriteNumber { a, j, v } => {
                    let data = written.iter_mut().find(|(object, _)| object.0 == a);
                    let Some((_, numbers)) = data else {
                        return Some(format!("call {i} wrote a number into no data"));
                    };
                    numbers[j] = v;
                }
                Call::ReadNumber { a, j } => {
                    let data = written.iter().find(|(object, _)| object.0 == a);
                    if data.map(|(_, numbers)| numbers[j] as usize) != Some(step.reply.value) {
                        return Some(format!("call {i} read what was not written"));
                    }
                }
                _ => {}
            }
        }
        for ((first, size), numbers) in &written {
            let is_data = bit(&step.after.data, *first) == 1;
            if !is_data || step.after.cells[4 * first..4 * (first + size)] != numbers[..] {
                return Some(format!("the data at {first} is lost after call {i}"));
            }
        }
        let bits = (0..blocks).filter(|block| bit(&step.after.data, *block) == 1);
        if bits.count() != written.len() {
            return Some(format!("a D bit of nothing made as data after call {i}"));
        }
    }
    None
}
