//! Every short list of calls on eight blocks, with demand 3's claims and U8's three after every call, and how often each clause of
//! U8 was met.

use crate::rules::answers::Reply;
use crate::rules::calls::short::{allocate, cell, chosen, data, root, step, OPEN};
use crate::rules::calls::{apply, Call};
use crate::rules::claims::{broken_claim, written_in};
use crate::rules::heap::{bit, count, Memory};
use crate::rules::mark_claims::{listed, marked, named_by, open, standing, touched, Firsts};
use crate::rules::step_claims::{follow, Opened};
use std::collections::{BTreeMap, HashSet};

const N: usize = 8;

/// The calls that the lists are made of. Objects of one block come to stand at 0, 1 and 2; there are two roots.
pub const ALPHABET: [Call; 21] = [
    Call::Allocate { n: 1, r: 0 },
    Call::Allocate { n: 1, r: 1 },
    Call::AllocateData { n: 1, r: 1 },
    Call::StoreRoot { r: 0, v: 0 },
    Call::StoreRoot { r: 1, v: 0 },
    Call::StoreRoot { r: 0, v: 2 },
    Call::StoreRoot { r: 1, v: 1 },
    Call::StoreCell { a: 0, j: 0, v: 0 },
    Call::StoreCell { a: 0, j: 0, v: 1 },
    Call::StoreCell { a: 0, j: 1, v: 0 },
    Call::StoreCell { a: 0, j: 1, v: 2 },
    Call::StoreCell { a: 1, j: 0, v: 1 },
    Call::StoreCell { a: 1, j: 1, v: 3 },
    Call::StoreCell { a: 2, j: 0, v: 3 },
    Call::ReturnRoots { chosen: 3 },
    Call::Collect,
    Call::Format,
    Call::OpenCollection,
    Call::StepCollection { budget: 0 },
    Call::StepCollection { budget: 1 },
    Call::StepCollection { budget: 9 },
];

/// A heap from which every list goes on: the calls that make it of a formatted one. With them each is a list as in demand 3.
pub struct Start {
    pub name: &'static str,
    pub calls: Vec<Call>,
}

/// The heaps. Six calls alone hardly make garbage, open a collection and close it.
pub fn starts() -> Vec<Start> {
    let start = |name, calls: &[Call]| Start {
        name,
        calls: calls.to_vec(),
    };
    // A cycle of one at 0 that no root leads to, and that names the object at 1, in root 1.
    let garbage = [
        allocate(1, 0),
        allocate(1, 1),
        cell(0, 0, 1),
        cell(0, 1, 2),
        root(0, 0),
    ];
    // Root 0 names 0, which names 1, which names 2.
    let chain = [
        allocate(1, 0),
        allocate(1, 1),
        cell(0, 1, 2),
        allocate(1, 1),
        cell(1, 1, 3),
        root(1, 0),
    ];
    // The cycle at 2 is garbage and names the one at 1, which is garbage too and names 0, in root 0.
    let behind = [
        allocate(1, 0),
        allocate(1, 1),
        cell(1, 0, 1),
        allocate(1, 1),
        cell(2, 0, 3),
        root(0, 2),
        cell(2, 3, 2),
        root(1, 1),
        root(0, 0),
    ];
    let with_data = [
        allocate(1, 0),
        data(1, 1),
        cell(0, 1, 2),
        allocate(1, 1),
        cell(2, 0, 3),
        root(1, 0),
    ];
    // Cycles of one at 0 and 1 that no root leads to, of which the lower one names the other.
    let two = [
        allocate(1, 0),
        allocate(1, 1),
        cell(0, 0, 1),
        cell(1, 3, 2),
        cell(0, 1, 2),
        chosen(3),
    ];
    let open_chain = [
        allocate(1, 0),
        allocate(1, 1),
        cell(0, 1, 2),
        chosen(2),
        OPEN,
    ];
    vec![
        start("a formatted heap", &[]),
        start("a cycle of garbage that names a reached object", &garbage),
        start("a chain", &chain),
        start("garbage that names garbage", &behind),
        start("data behind an object, and garbage", &with_data),
        start("two cycles of garbage", &two),
        start("a chain of two, with a collection open", &open_chain),
        start(
            "the cycle of garbage, with a collection open",
            &[&garbage[..], &[OPEN]].concat(),
        ),
        start(
            "the chain, with a collection open and one step taken",
            &[&chain[..], &[OPEN, step(1)]].concat(),
        ),
    ]
}

/// Where a list stands: a heap, and what the claims about whole lists have to know of the calls before.
type Stand = (Memory, Option<Opened>);

/// What was tried.
#[derive(Clone, Debug, Default)]
pub struct Tried {
    /// The lists, by arithmetic: every word over the alphabet up to the length.
    pub lists: u128,
    /// Different stands that they come to, and the calls made from them.
    pub stands: usize,
    pub calls: usize,
    /// Collections that were closed, and how often as many steps were taken as objects were present.
    pub closed: usize,
    pub as_many_steps: usize,
    pub clauses: BTreeMap<&'static str, usize>,
}

/// One call with all claims: where the list stands then, or what is broken.
fn call_and_claims(
    width: usize,
    (memory, opened): &Stand,
    call: Call,
    tried: &mut Tried,
) -> Result<Stand, String> {
    let mut after = memory.clone();
    let reply = apply(N, width, &mut after, call);
    let wrong = |what| {
        format!("{what}\ncall {call:?}\nreply {reply:?}\nbefore {memory:?}\nafter {after:?}")
    };
    if let Some(what) = broken_claim(N, width, memory, call, reply, &after) {
        return Err(wrong(what));
    }
    let next = follow(N, opened.clone(), memory, call, reply, &after).map_err(wrong)?;
    if let (Call::StepCollection { .. }, 0, Some(opened), None) =
        (call, reply.number, opened, &next)
    {
        tried.closed += 1;
        tried.as_many_steps += usize::from(opened.steps + reply.value == opened.present);
    }
    for clause in clauses(width, memory, call, reply, &after) {
        *tried.clauses.entry(clause).or_default() += 1;
    }
    tried.calls += 1;
    Ok((after, next))
}

/// All lists that go on from a heap with at most so many calls. Where two come to the same stand, the calls behind them do the
/// same, and are made once.
pub fn every_list(
    width: usize,
    start: &Start,
    depth: u32,
    tried: &mut Tried,
) -> Result<(), String> {
    let mut stand: Stand = (Memory::zeros(N, width, 2), None);
    for call in [Call::Format].iter().chain(&start.calls) {
        stand = call_and_claims(width, &stand, *call, tried)?;
    }
    let mut met: HashSet<Stand> = HashSet::from([stand.clone()]);
    let mut last = vec![stand];
    for _ in 0..depth {
        let mut next = Vec::new();
        for stand in &last {
            for call in ALPHABET {
                let after = call_and_claims(width, stand, call, tried)?;
                if met.insert(after.clone()) {
                    next.push(after);
                }
            }
        }
        last = next;
    }
    tried.stands += met.len();
    tried.lists += (0..=depth)
        .map(|length| (ALPHABET.len() as u128).pow(length))
        .sum::<u128>();
    Ok(())
}

/// The same behind every one of the heaps.
pub fn every_list_behind_all(width: usize, depth: u32) -> Result<Tried, String> {
    let mut tried = Tried::default();
    for start in starts() {
        every_list(width, &start, depth, &mut tried)
            .map_err(|what| format!("behind {}: {what}", start.name))?;
    }
    Ok(tried)
}

impl Tried {
    pub fn text(&self, width: usize, depth: u32) -> String {
        format!(
            "w = {width}: all {} lists of up to {depth} of {} calls behind {} heaps: {} stands, {} calls with claims, {} closes, {} of \
             them after as many steps as objects were present\n",
            self.lists,
            ALPHABET.len(),
            starts().len(),
            self.stands,
            self.calls,
            self.closed,
            self.as_many_steps
        )
    }
}

/// The names of all clauses.
pub const CLAUSES: [&str; 21] = [
    "opened with something named",
    "a step lists what it meets",
    "a step meets nothing new",
    "a step takes data",
    "a budget of 0 on an empty list",
    "fewer steps than the budget",
    "the last step of the budget closes",
    "the close frees",
    "a survivor is counted down",
    "a survivor reaches 0",
    "a survivor that is stuck is named",
    "born marked",
    "an owner is marked",
    "an old object is marked",
    "a new object is marked",
    "a store changes nothing",
    "what a freed cell named is marked",
    "a freed object leaves the map",
    "a freed object leaves the list",
    "refused 14 by a step",
    "refused 14 by an opening or a collection",
];

/// The clauses of U8 that a call meets.
pub fn clauses(
    width: usize,
    before: &Memory,
    call: Call,
    reply: Reply,
    after: &Memory,
) -> Vec<&'static str> {
    let blocks = 8 * before.a.len();
    let mut met = Vec::new();
    let mut meets = |is_met: bool, clause| {
        if is_met {
            met.push(clause);
        }
    };
    if reply.number == 14 {
        let by_step = matches!(call, Call::StepCollection { .. });
        meets(by_step, "refused 14 by a step");
        meets(!by_step, "refused 14 by an opening or a collection");
        return met;
    }
    if reply.number != 0 {
        return met;
    }
    let (was_marked, is_marked) = (marked(blocks, before), marked(blocks, after));
    let (was_listed, is_listed) = (listed(blocks, before), listed(blocks, after));
    let stand = standing(blocks, after);
    let gone: Firsts = standing(blocks, before)
        .difference(&stand)
        .copied()
        .collect();
    match call {
        Call::OpenCollection => meets(!is_marked.is_empty(), "opened with something named"),
        Call::StepCollection { budget } => {
            let closed = !open(blocks, after);
            let more = is_marked.difference(&was_marked).count() > 0;
            meets(more, "a step lists what it meets");
            meets(
                reply.value > 0 && !closed && !more,
                "a step meets nothing new",
            );
            let takes =
                |first: &usize| bit(&before.data, *first) == 1 && !is_listed.contains(first);
            let data = was_listed.iter().any(takes);
            meets(reply.value > 0 && data, "a step takes data");
            let empty = was_listed.is_empty();
            meets(budget == 0 && empty, "a budget of 0 on an empty list");
            meets(reply.value < budget, "fewer steps than the budget");
            meets(
                closed && reply.value == budget,
                "the last step of the budget closes",
            );
            meets(!gone.is_empty(), "the close frees");
            let fell = |first: &usize| {
                count(blocks, width, after, *first) < count(blocks, width, before, *first)
            };
            meets(stand.iter().any(fell), "a survivor is counted down");
            // Marked before the call, so a survivor.
            meets(
                gone.intersection(&was_marked).count() > 0,
                "a survivor reaches 0",
            );
            let named = named_by(blocks, before, &gone);
            let stuck = |first: &usize| stand.contains(first) && !fell(first);
            meets(named.iter().any(stuck), "a survivor that is stuck is named");
        }
        _ if !open(blocks, before) || call == Call::Format => {}
        _ => {
            let written = written_in(before, call, reply);
            let first_met: Firsts = is_listed.difference(&was_listed).copied().collect();
            meets(call.allocates().is_some(), "born marked");
            if let Call::StoreCell { a, j, v } = call {
                let old = before.cells[4 * a + j] as usize;
                meets(first_met.contains(&a), "an owner is marked");
                let other = |object: usize| object != 0 && object != 1 + a;
                let marks = |object: usize| other(object) && first_met.contains(&(object - 1));
                meets(marks(old), "an old object is marked");
                meets(marks(v), "a new object is marked");
            }
            if let Call::StoreRoot { v, .. } = call {
                let marks = v != 0 && first_met.contains(&(v - 1));
                meets(marks, "a new object is marked");
            }
            let touched = touched(before, call, &written);
            let is_store = matches!(call, Call::StoreRoot { .. } | Call::StoreCell { .. });
            meets(is_store && touched.is_empty(), "a store changes nothing");
            let by_freed = named_by(blocks, &written, &gone);
            let freed_cells = by_freed.difference(&touched).copied().collect::<Firsts>();
            meets(
                freed_cells.intersection(&first_met).count() > 0,
                "what a freed cell named is marked",
            );
            let left = |set: &Firsts| gone.intersection(set).count() > 0;
            meets(left(&was_marked), "a freed object leaves the map");
            meets(left(&was_listed), "a freed object leaves the list");
        }
    }
    met
}
