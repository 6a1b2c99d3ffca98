//! Wrong readings of document 02, U4, each as a heap that makes one call from the model's heap: each gives something else
//! than the model does, and the claims notice it.

mod common;
use common::{each_call, say};
use model::lists::families::FAMILIES;
use model::lists::file::Bench;
use model::rules::chunks::{least_power_of_two, lowest_free_chunk_between};
use model::rules::claims::broken_claim;
use model::rules::counting::{longest_waiting, release};
use model::rules::damage::damage;
use model::rules::heap::*;
use model::rules::sections::{figures, leave_list_true};
use model::{apply, Call, Memory, Reply};

#[derive(Clone, Copy, Debug, PartialEq)]
enum Wrong {
    Nothing,
    /// The figure is the length of the longest free stretch, wherever it starts.
    LongestStretch,
    /// A stretch counts from the section's first block on only.
    StretchFromTheStart,
    FigureOneTooLarge,
    FigureOneTooSmall,
    /// The highest section whose figure suffices is taken.
    HighestSection,
    /// Only the first section is searched.
    FirstSectionAlone,
    /// Only the first number of the list is tested.
    FirstNumberAlone,
    /// A figure must be larger than what is asked for.
    FigureMustExceed,
    /// Sizes of 257 to 512 are sought by the figures too, of which none is above 256.
    LongSizesInASection,
    ElevenBeforeTwo,
    ElevenAfterItsOwn,
    ElevenNotInReadingCalls,
    FormatLeavesZero,
    FormatTestsTheList,
    LeftByStores,
    LeftByAllocations,
    LeftByCollections,
    LeftByReturns,
    /// What an allocation frees is not seen, what it places is.
    LeftByTheFreeOfAnAllocation,
    /// Only the section of an object's first block is written.
    FirstSectionOfAnObject,
}

const WRONG: [Wrong; 20] = [
    Wrong::LongestStretch,
    Wrong::StretchFromTheStart,
    Wrong::FigureOneTooLarge,
    Wrong::FigureOneTooSmall,
    Wrong::HighestSection,
    Wrong::FirstSectionAlone,
    Wrong::FirstNumberAlone,
    Wrong::FigureMustExceed,
    Wrong::LongSizesInASection,
    Wrong::ElevenBeforeTwo,
    Wrong::ElevenAfterItsOwn,
    Wrong::ElevenNotInReadingCalls,
    Wrong::FormatLeavesZero,
    Wrong::FormatTestsTheList,
    Wrong::LeftByStores,
    Wrong::LeftByAllocations,
    Wrong::LeftByCollections,
    Wrong::LeftByReturns,
    Wrong::LeftByTheFreeOfAnAllocation,
    Wrong::FirstSectionOfAnObject,
];

fn refused(number: usize) -> Reply {
    Reply {
        number,
        value: 0,
        second: 0,
    }
}

impl Wrong {
    /// What this heap takes for the figure of section k.
    fn figure(self, blocks: usize, memory: &Memory, k: usize) -> Ref {
        let right = figures(blocks, memory)[k];
        let length = section_length(blocks);
        let free = |i: usize| !is_allocated(memory, i);
        match self {
            Wrong::LongestStretch => longest(k * length..(k + 1) * length, free),
            Wrong::StretchFromTheStart => {
                let blocks = k * length..(k + 1) * length;
                let stretch = blocks.take_while(|i| free(*i)).count();
                (1 << stretch.max(1).ilog2()) * Ref::from(stretch > 0)
            }
            Wrong::FigureOneTooLarge => right + 1,
            Wrong::FigureOneTooSmall => right.saturating_sub(1),
            _ => right,
        }
    }

    fn figures(self, blocks: usize, memory: &Memory) -> Vec<Ref> {
        let sections = 0..section_count(blocks);
        sections.map(|k| self.figure(blocks, memory, k)).collect()
    }

    /// Whether 11 is said.
    fn is_untrue(self, blocks: usize, memory: &Memory) -> bool {
        let due = self.figures(blocks, memory);
        match self {
            Wrong::FirstNumberAlone => memory.sections[0] != due[0],
            _ => memory.sections != due,
        }
    }

    /// Where an allocation of s blocks goes.
    fn find(self, blocks: usize, memory: &Memory, s: usize) -> Option<usize> {
        let length = section_length(blocks);
        if s > length && self != Wrong::LongSizesInASection {
            return lowest_free_chunk_between(memory, 0, blocks, s);
        }
        let suffices = |figure: &Ref| match self {
            Wrong::FigureMustExceed => *figure as usize > s,
            _ => *figure as usize >= s,
        };
        let mut sections = memory.sections.iter();
        let k = match self {
            Wrong::HighestSection => sections.rposition(suffices)?,
            Wrong::FirstSectionAlone => sections.take(1).position(suffices)?,
            _ => sections.position(suffices)?,
        };
        lowest_free_chunk_between(memory, k * length, (k + 1) * length, s)
    }

    /// Whether the list is left as it was by this accepted call.
    fn leaves_list(self, call: Call) -> bool {
        match call {
            Call::StoreRoot { .. } | Call::StoreCell { .. } => self == Wrong::LeftByStores,
            Call::Allocate { .. } | Call::AllocateData { .. } => self == Wrong::LeftByAllocations,
            Call::Collect => self == Wrong::LeftByCollections,
            Call::ReturnRoots { .. } => self == Wrong::LeftByReturns,
            _ => false,
        }
    }

    /// The number that comes before the call's own, if one does.
    fn first(self, blocks: usize, width: usize, memory: &Memory, call: Call) -> Option<Reply> {
        if misshapen(blocks, width, memory) {
            return Some(refused(1));
        }
        let untrue = self.is_untrue(blocks, memory).then(|| refused(11));
        if call == Call::Format {
            return untrue.filter(|_| self == Wrong::FormatTestsTheList);
        }
        let damaged = match damage(blocks, width, memory) {
            0 => None,
            kind => Some(Reply {
                value: kind,
                ..refused(2)
            }),
        };
        match self {
            Wrong::ElevenBeforeTwo => untrue.or(damaged),
            Wrong::ElevenNotInReadingCalls if call.only_reads() => damaged,
            Wrong::ElevenAfterItsOwn => damaged.or_else(|| {
                let mut mended = memory.clone();
                leave_list_true(blocks, &mut mended);
                let reply = apply(blocks, width, &mut mended, call);
                untrue.map(|eleven| if reply.number == 0 { eleven } else { reply })
            }),
            _ => damaged.or(untrue),
        }
    }

    /// One call. What the heap has right is the model's, from a heap with a true list.
    fn apply(self, blocks: usize, width: usize, memory: &mut Memory, call: Call) -> Reply {
        if let Some(reply) = self.first(blocks, width, memory, call) {
            return reply;
        }
        let before = memory.clone();
        leave_list_true(blocks, memory);
        let mut reply = apply(blocks, width, memory, call);
        if let Call::Allocate { n, r } | Call::AllocateData { n, r } = call {
            if reply.number == 0 || reply.number == 5 {
                *memory = before.clone();
                reply = match self.find(blocks, memory, least_power_of_two(n)) {
                    Some(first) => {
                        let as_data = matches!(call, Call::AllocateData { .. });
                        set_bit(&mut memory.data, first, u8::from(as_data));
                        place(blocks, width, memory, n, r, first)
                    }
                    None => refused(5),
                };
            }
        }
        if reply.number != 0 || call.only_reads() {
            memory.sections = before.sections;
        } else if call == Call::Format && self == Wrong::FormatLeavesZero {
            memory.sections.fill(0);
        } else if self.leaves_list(call) {
            memory.sections = before.sections;
        } else {
            memory.sections = self.list_after(blocks, &before, call, reply, memory);
        }
        reply
    }

    /// The list that an accepted call leaves.
    fn list_after(
        self,
        blocks: usize,
        before: &Memory,
        call: Call,
        reply: Reply,
        after: &Memory,
    ) -> Vec<Ref> {
        let mut due = self.figures(blocks, after);
        match (self, call) {
            (
                Wrong::LeftByTheFreeOfAnAllocation,
                Call::Allocate { n, .. } | Call::AllocateData { n, .. },
            ) => {
                let mut placed = before.clone();
                for i in reply.value..reply.value + n {
                    set_bit(&mut placed.a, i, 1);
                }
                figures(blocks, &placed)
            }
            (Wrong::FirstSectionOfAnObject, _) if call != Call::Format => {
                // Sections in which no object begins that stood before the call or stands after it.
                let firsts = [first_blocks(blocks, before), first_blocks(blocks, after)].concat();
                for (k, figure) in due.iter_mut().enumerate() {
                    let begins = |first: &usize| first / section_length(blocks) == k;
                    if !firsts.iter().any(begins) {
                        *figure = before.sections[k];
                    }
                }
                due
            }
            _ => due,
        }
    }
}

/// The length of the longest stretch of free blocks.
fn longest(blocks: std::ops::Range<usize>, free: impl Fn(usize) -> bool) -> Ref {
    let (mut longest, mut now) = (0, 0);
    for i in blocks {
        now = if free(i) { now + 1 } else { 0 };
        longest = longest.max(now);
    }
    longest
}

/// A new object of n blocks, placed here.
fn place(
    blocks: usize,
    width: usize,
    memory: &mut Memory,
    n: usize,
    r: usize,
    first: usize,
) -> Reply {
    for i in first..first + n {
        set_bit(&mut memory.a, i, 1);
    }
    set_bit(&mut memory.b, first + n - 1, 0);
    set_count(blocks, width, memory, first, 1);
    // What a root held is marked already.
    let born_marked = memory.list[blocks] == 1;
    set_bit(&mut memory.marks, first, u8::from(born_marked));
    let old = std::mem::replace(&mut memory.roots[r], 1 + first as Ref);
    release(blocks, width, memory, old, &mut longest_waiting);
    memory.waiting.fill(0);
    Reply {
        number: 0,
        value: first,
        second: usize::from(width == 1),
    }
}

/// Whether a heap gives something else than the model for a call. The claims notice what is wrong, and nothing else.
fn differs(wrong: Wrong, bench: &Bench, call: Call) -> bool {
    let (blocks, width) = (bench.blocks, bench.width);
    let mut right = bench.memory.clone();
    let due = apply(blocks, width, &mut right, call);
    let mut memory = bench.memory.clone();
    let reply = wrong.apply(blocks, width, &mut memory, call);
    let differs = (reply, &memory) != (due, &right);
    let broken = broken_claim(blocks, width, &bench.memory, call, reply, &memory);
    assert_eq!(broken.is_some(), differs, "{wrong:?}, {call:?}: {broken:?}");
    differs
}

/// Every call of lists of every family, the most of them on several sections.
fn each_tried(mut show: impl FnMut(&Bench, Call)) {
    for (family, _) in FAMILIES {
        let seeds = if family == "sections" { 16 } else { 3 };
        for seed in 0..seeds {
            each_call(family, seed, 100, &mut show);
        }
    }
}

#[test]
fn wrong_readings_are_told_apart() {
    let mut told = [0; WRONG.len()];
    let mut calls = 0;
    each_tried(|bench, call| {
        calls += 1;
        assert!(!differs(Wrong::Nothing, bench, call), "{call:?}");
        for (k, wrong) in WRONG.into_iter().enumerate() {
            told[k] += usize::from(differs(wrong, bench, call));
        }
    });
    for (wrong, told) in WRONG.into_iter().zip(told) {
        assert!(told > 0, "{wrong:?} is never told apart");
        say(&format!(
            "wrong reading of sections, {wrong:?}: {told} of {calls} calls end otherwise"
        ));
    }
}
