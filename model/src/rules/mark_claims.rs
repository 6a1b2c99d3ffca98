//! The claims of document 02, U8, about one call, checked by brute force as those of claims.rs are: what 13 and 14 are said of, and
//! what the mark map and the list hold after an accepted call. Nothing of marks.rs and steps.rs is used: sets of objects before
//! and after are compared.

use crate::rules::answers::Reply;
use crate::rules::calls::Call;
use crate::rules::claims::{objects, ordinary, written_in};
use crate::rules::heap::{bit, capacity, count, Memory, Ref};
use std::collections::BTreeSet;

/// First blocks.
pub type Firsts = BTreeSet<usize>;

/// The marked blocks.
pub fn marked(blocks: usize, memory: &Memory) -> Firsts {
    (0..blocks)
        .filter(|i| bit(&memory.marks, *i) == 1)
        .collect()
}

/// What stands on the list, but for its last place; a 0 stands for nothing.
pub fn listed(blocks: usize, memory: &Memory) -> Firsts {
    let held = memory.list[..blocks].iter().filter(|v| **v != 0);
    held.map(|v| *v as usize - 1).collect()
}

/// "the last place being 1 while a collection is open"
pub fn open(blocks: usize, memory: &Memory) -> bool {
    memory.list[blocks] == 1
}

/// The first blocks of all objects.
pub fn standing(blocks: usize, memory: &Memory) -> Firsts {
    let all = objects(blocks, memory);
    all.into_iter().map(|(first, _)| first).collect()
}

/// What the cells of these objects name, and those of data don't.
pub fn named_by(blocks: usize, memory: &Memory, owners: &Firsts) -> Firsts {
    let mut names = Firsts::new();
    for (first, size) in ordinary(blocks, memory) {
        if owners.contains(&first) {
            let cells = memory.cells[4 * first..4 * (first + size)].iter();
            names.extend(cells.filter(|v| **v != 0).map(|v| *v as usize - 1));
        }
    }
    names
}

/// What the roots name.
fn named_by_roots(memory: &Memory) -> Firsts {
    let names = memory.roots.iter().filter(|v| **v != 0);
    names.map(|v| *v as usize - 1).collect()
}

/// What 13 is said of, clause by clause.
pub const ILL: [&str; 8] = [
    "the list is not strictly rising with 0s behind",
    "the list holds what is no first block",
    "the last place is neither 0 nor 1",
    "the list holds an unmarked object",
    "a mark is not on a first block",
    "a mark or a list place, and none is open",
    "a root names an unmarked object",
    "a marked unlisted object names an unmarked one",
];

/// The first of these clauses that a sound heap meets.
pub fn ill_marked(blocks: usize, memory: &Memory) -> Option<usize> {
    let (marked, listed) = (marked(blocks, memory), listed(blocks, memory));
    let standing = standing(blocks, memory);
    // "1 + first blocks, strictly rising, then 0s": so the list is what sorting makes of it, with nothing twice.
    let mut due: Vec<Ref> = listed.iter().map(|first| (1 + first) as Ref).collect();
    due.resize(blocks, 0);
    let is_open = open(blocks, memory);
    let done = marked.difference(&listed).copied().collect();
    let met = [
        memory.list[..blocks] != due,
        !listed.is_subset(&standing),
        memory.list[blocks] > 1,
        !listed.is_subset(&marked),
        !marked.is_subset(&standing),
        !is_open && (!marked.is_empty() || !listed.is_empty()),
        is_open && !named_by_roots(memory).is_subset(&marked),
        is_open && !named_by(blocks, memory, &done).is_subset(&marked),
    ];
    met.into_iter().position(|is_met| is_met)
}

/// "13, ... next after 11": behind 1, 2 and 11 it is said of every such heap, and of no other; and never by a format.
pub fn wrong_about_marks(
    blocks: usize,
    before: &Memory,
    call: Call,
    reply: Reply,
) -> Option<String> {
    let is_said = reply.number == 13;
    if call == Call::Format {
        return is_said.then(|| "a format tests the marks".into());
    }
    if [1, 2, 11].contains(&reply.number) {
        return None;
    }
    match ill_marked(blocks, before) {
        None if is_said => Some("13 is said of right marks".into()),
        Some(clause) if !is_said => Some(format!("{}, and 13 is not said", ILL[clause])),
        _ => None,
    }
}

/// "14, a step with none open, or an opening or full collection with one open, after 13."
pub fn wrong_about_open(
    blocks: usize,
    before: &Memory,
    call: Call,
    reply: Reply,
) -> Option<String> {
    if [1, 2, 11, 13].contains(&reply.number) {
        return None;
    }
    let due = match call {
        Call::StepCollection { .. } => !open(blocks, before),
        Call::OpenCollection | Call::Collect => open(blocks, before),
        _ => false,
    };
    (due != (reply.number == 14)).then(|| format!("14 due: {due}, reply {reply:?}"))
}

/// What an accepted call leaves in the mark map and on the list, where that isn't what is due.
pub fn wrong_marks(
    blocks: usize,
    width: usize,
    before: &Memory,
    call: Call,
    reply: Reply,
    after: &Memory,
) -> Option<String> {
    if let Some(clause) = ill_marked(blocks, after) {
        return Some(ILL[clause].into());
    }
    match call {
        Call::Format => open(blocks, after).then(|| "open after a format".into()),
        Call::OpenCollection => wrong_opening(blocks, before, after),
        Call::StepCollection { budget } => wrong_step(blocks, width, before, budget, reply, after),
        // With none open there is nothing to keep, and none becomes open.
        _ if !open(blocks, before) => open(blocks, after).then(|| format!("{call:?} opens one")),
        _ => wrong_store(blocks, before, call, reply, after),
    }
}

fn differs(what: &str, found: &Firsts, due: &Firsts) -> Option<String> {
    (found != due).then(|| format!("{what}: {found:?}, due {due:?}"))
}

/// "Opening marks every object a root names, ... and puts it on a second list", and changes nothing else.
fn wrong_opening(blocks: usize, before: &Memory, after: &Memory) -> Option<String> {
    let mut rest = after.clone();
    (rest.marks, rest.list) = (before.marks.clone(), before.list.clone());
    if rest != *before || !open(blocks, after) {
        return Some("an opening changes more, or opens none".into());
    }
    let due = named_by_roots(before);
    differs("marked", &marked(blocks, after), &due)
        .or_else(|| differs("listed", &listed(blocks, after), &due))
}

/// "While open, objects are born marked; each reference store that changes a value, an allocation's included, marks and lists what
/// is unmarked among its owner, old and new objects; clearing a freed object's cells marks and lists the unmarked ones they named;
/// a freed object leaves map and list." Other calls keep both.
fn wrong_store(
    blocks: usize,
    before: &Memory,
    call: Call,
    reply: Reply,
    after: &Memory,
) -> Option<String> {
    let written = written_in(before, call, reply);
    let stand = standing(blocks, after);
    let gone = objects(blocks, before)
        .difference(&objects(blocks, after))
        .map(|(first, _)| *first)
        .collect();
    let mut met = named_by(blocks, &written, &gone);
    met.extend(touched(before, call, &written));
    let born: Firsts = call.allocates().map(|_| reply.value).into_iter().collect();
    let was_marked = marked(blocks, before);
    let first_met: Firsts = met.difference(&was_marked).copied().collect();
    let on = |set: &Firsts, more: &Firsts| set.union(more).copied().collect::<Firsts>();
    let mut due_marked = on(&on(&was_marked, &first_met), &born);
    let mut due_listed = on(&listed(blocks, before), &first_met);
    due_marked.retain(|first| stand.contains(first));
    due_listed.retain(|first| stand.contains(first) && !born.contains(first));
    if !open(blocks, after) {
        return Some(format!("{call:?} closes it"));
    }
    differs("marked", &marked(blocks, after), &due_marked)
        .or_else(|| differs("listed", &listed(blocks, after), &due_listed))
}

/// The owner, old and new objects of a reference store that changes a value.
pub fn touched(before: &Memory, call: Call, written: &Memory) -> Firsts {
    let (owner, old, new) = match call {
        Call::StoreRoot { r, .. } | Call::Allocate { r, .. } | Call::AllocateData { r, .. } => {
            (0, before.roots[r], written.roots[r])
        }
        Call::StoreCell { a, j, .. } => {
            let place = 4 * a + j;
            (1 + a, before.cells[place], written.cells[place])
        }
        _ => return Firsts::new(),
    };
    let all = if old == new {
        [0; 3]
    } else {
        [owner, old as usize, new as usize]
    };
    let objects = all.into_iter().filter(|v| *v != 0);
    objects.map(|v| v - 1).collect()
}

/// "A step takes the lowest." "Steps mark and list what they first meet." How many were taken, and what is marked and listed then.
fn stepped(blocks: usize, before: &Memory, budget: usize) -> (usize, Firsts, Firsts) {
    let (mut marks, mut list) = (marked(blocks, before), listed(blocks, before));
    let mut steps = 0;
    while steps < budget {
        let Some(lowest) = list.pop_first() else {
            break;
        };
        for first in named_by(blocks, before, &Firsts::from([lowest])) {
            if marks.insert(first) {
                list.insert(first);
            }
        }
        steps += 1;
    }
    (steps, marks, list)
}

/// "It replies with the steps taken, all of them unless the list ran out, and the blocks freed." "When a call with a budget above
/// 0 leaves the list empty it frees all objects then unmarked, ... and counts down the survivors that these named ... (one that
/// reaches 0 is freed as in a store), and clears the mark map and the list."
fn wrong_step(
    blocks: usize,
    width: usize,
    before: &Memory,
    budget: usize,
    reply: Reply,
    after: &Memory,
) -> Option<String> {
    let (steps, marks, list) = stepped(blocks, before, budget);
    if reply.value != steps {
        return Some(format!("{} steps, {steps} due", reply.value));
    }
    let closes = budget > 0 && list.is_empty();
    if open(blocks, after) == closes {
        return Some(format!("closed: {}", !closes));
    }
    if !closes {
        let mut rest = after.clone();
        (rest.marks, rest.list) = (before.marks.clone(), before.list.clone());
        if !rest.same_but_for_waiting(before) {
            return Some("a step that doesn't close changes more".into());
        }
        return differs("marked", &marked(blocks, after), &marks)
            .or_else(|| differs("listed", &listed(blocks, after), &list));
    }
    let gone = gone_at_close(blocks, width, before, &marks);
    let mut due = objects(blocks, before);
    due.retain(|(first, _)| !gone.contains(first));
    if objects(blocks, after) != due {
        return Some("other objects stand after the close".into());
    }
    // Counts only fall, and a stuck one stays: that the others are right is said of every heap.
    let recounted = due.iter().find(|(first, _)| {
        let [was, is] = [before, after].map(|memory| count(blocks, width, memory, *first));
        is > was || (was == capacity(width)) != (is == capacity(width))
    });
    recounted.map(|(first, _)| format!("the object at {first} is counted anew"))
}

/// What is unmarked, and each survivor that isn't stuck and that nothing but what is gone names.
pub fn gone_at_close(blocks: usize, width: usize, before: &Memory, marks: &Firsts) -> Firsts {
    let all = standing(blocks, before);
    let mut gone: Firsts = all.difference(marks).copied().collect();
    loop {
        let stay = all.difference(&gone).copied().collect();
        let mut named = named_by(blocks, before, &stay);
        named.extend(named_by_roots(before));
        let freed = stay.into_iter().find(|first| {
            !named.contains(first) && count(blocks, width, before, *first) != capacity(width)
        });
        match freed {
            Some(first) => gone.insert(first),
            None => return gone,
        };
    }
}
