//! The claims of document 02, U4, checked by brute force as those of claims.rs are: every size and every place is tried,
//! and nothing is halved.

use crate::rules::answers::Reply;
use crate::rules::calls::Call;
use crate::rules::chunks::lowest_free_chunk;
use crate::rules::claims::unsound;
use crate::rules::heap::{is_allocated, section_length, Memory};
use crate::rules::sections::lowest_by_sections;

/// The powers of two up to this one, the largest first.
fn powers_down_from(most: usize) -> impl Iterator<Item = usize> {
    (0..most.ilog2() + 1).rev().map(|k| 1 << k)
}

/// "holds the size of its largest free aligned chunk, 0 if none", and so the list is true: what is not so, if anything.
pub fn untrue_list(blocks: usize, memory: &Memory) -> Option<String> {
    let length = section_length(blocks);
    let is_free = |start: usize, s: usize| (start..start + s).all(|i| !is_allocated(memory, i));
    for (k, said) in memory.sections.iter().enumerate() {
        let section = k * length..(k + 1) * length;
        let has_free = |s: &usize| {
            let mut starts = section.clone().filter(|start| start % s == 0);
            starts.any(|start| is_free(start, *s))
        };
        let due = powers_down_from(length).find(has_free).unwrap_or(0);
        if *said as usize != due {
            return Some(format!("section {k} is said to have {said}, it has {due}"));
        }
    }
    None
}

/// "For every heap the address, or the lack of one, must be that of document 01": a size for which it isn't, if there is
/// one.
pub fn other_address(blocks: usize, memory: &Memory) -> Option<String> {
    powers_down_from(blocks).find_map(|s| {
        let by_sections = lowest_by_sections(blocks, memory, s);
        let due = lowest_free_chunk(blocks, memory, s);
        (by_sections != due).then(|| format!("size {s}: {by_sections:?} by sections, {due:?} due"))
    })
}

/// "Errors: 11, the list doesn't match the maps, next after 2." Behind 1 and 2 it is said of every such list, and of no
/// other; and never by a format.
pub fn wrong_about_list(
    blocks: usize,
    width: usize,
    before: &Memory,
    call: Call,
    reply: Reply,
) -> Option<String> {
    let is_said = reply.number == 11;
    if call == Call::Format {
        return is_said.then(|| "a format tests the list".into());
    }
    if reply.number == 1 || reply.number == 2 {
        return None;
    }
    match untrue_list(blocks, before) {
        None if is_said => Some("11 is said of a true list".into()),
        Some(what) if !is_said => Some(format!("{what}, and 11 is not said")),
        Some(_) if unsound(blocks, width, before).is_some() => {
            Some("11 is said of a damaged heap".into())
        }
        _ => None,
    }
}
