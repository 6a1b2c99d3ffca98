//! Document 02, U5: "whether this very step brought the count to the capacity, a birth at width 1 included". The second
//! value of a store and of an allocation, and wrong ones, which the claims notice.

mod common;
use common::{fresh, say};
use model::lists::families::{generate, FAMILIES};
use model::lists::file::Entry;
use model::rules::calls::short::{allocate, cell, chosen, root};
use model::rules::claims::{broken_claim, objects, own_reference};
use model::rules::heap::{capacity, count, Memory};
use model::rules::list_claims::Step;
use model::{apply, Call, Reply};

/// The second values of calls on a formatted heap of 8 blocks and 4 roots.
fn seconds(width: usize, calls: &[Call]) -> Vec<usize> {
    let mut memory = fresh(8, width, 4);
    let reply = |call: &Call| apply(8, width, &mut memory, *call);
    let replies: Vec<Reply> = calls.iter().map(reply).collect();
    assert!(replies.iter().all(|reply| reply.number == 0), "{replies:?}");
    replies.iter().map(|reply| reply.second).collect()
}

#[test]
fn each_moment_is_told_once() {
    // Births, into a root that is in use, too.
    let births = [allocate(1, 0), allocate(1, 0), allocate(2, 1)];
    assert_eq!(seconds(1, &births), [1, 1, 1]);
    for width in 2..=4 {
        assert_eq!(seconds(width, &births), [0, 0, 0]);
    }
    // "A count at capacity is stuck": one more reference is no moment, nor is one over itself (U2).
    let more = [
        allocate(1, 0),
        root(1, 1),
        root(2, 1),
        root(3, 1),
        root(3, 1),
        cell(0, 0, 1),
    ];
    assert_eq!(seconds(1, &more), [1, 0, 0, 0, 0, 0]);
    assert_eq!(seconds(2, &more), [0, 0, 1, 0, 0, 0]);
    let present = [
        allocate(1, 0),
        root(1, 1),
        root(1, 1),
        cell(0, 0, 1),
        cell(0, 0, 1),
    ];
    assert_eq!(seconds(2, &present), [0, 0, 0, 1, 0]);
    // Stuck, collected, stuck again; a collection and a return are no moments.
    let again = [
        allocate(1, 0),
        root(1, 1),
        root(2, 1),
        chosen(4),
        Call::Collect,
        root(3, 1),
    ];
    assert_eq!(seconds(2, &again), [0, 0, 1, 0, 0, 1]);
    // The new object's, not that of the one let go.
    let old = [allocate(1, 0), root(1, 1), allocate(1, 2), root(1, 2)];
    assert_eq!(seconds(2, &old), [0, 0, 0, 0]);
    // Width 4: the fifteenth reference.
    let mut fifteen = vec![allocate(4, 0)];
    fifteen.extend((0..15).map(|j| cell(0, j, 1)));
    let told = seconds(4, &fifteen);
    assert_eq!(told[14], 1);
    assert_eq!(told.iter().sum::<usize>(), 1);
}

/// Second values that are wrong.
#[derive(Clone, Copy, Debug)]
enum Wrong {
    Never,
    OneEarly,
    OfWhatIsStuckAlready,
    OfTheOldObject,
    OfTheValuePresent,
    BirthsNever,
    BirthsAlways,
    InRefusals,
    InCollections,
}

const WRONG: [Wrong; 9] = [
    Wrong::Never,
    Wrong::OneEarly,
    Wrong::OfWhatIsStuckAlready,
    Wrong::OfTheOldObject,
    Wrong::OfTheValuePresent,
    Wrong::BirthsNever,
    Wrong::BirthsAlways,
    Wrong::InRefusals,
    Wrong::InCollections,
];

impl Wrong {
    /// What it gives for the second value of this step.
    fn second(self, blocks: usize, width: usize, step: &Step) -> usize {
        let right = step.reply.second;
        let top = capacity(width);
        let at = |memory: &Memory, first: usize| match objects(blocks, memory)
            .iter()
            .any(|(object, _)| *object == first)
        {
            true => count(blocks, width, memory, first),
            false => 0,
        };
        let named = own_reference(step.call, step.reply).map(|v| v as usize - 1);
        let old = match step.call {
            Call::StoreRoot { r, .. } if step.reply.number == 0 => step.before.roots[r],
            Call::StoreCell { a, j, .. } if step.reply.number == 0 => step.before.cells[4 * a + j],
            _ => return self.elsewhere(step),
        } as usize;
        let present = Some(old) == named.map(|first| 1 + first);
        match (self, named) {
            (Wrong::Never, _) => 0,
            (Wrong::OneEarly, Some(first)) => {
                usize::from(!present && at(&step.before, first) + 2 == top)
            }
            (Wrong::OfWhatIsStuckAlready, Some(first)) => {
                usize::from(right == 1 || at(&step.before, first) == top)
            }
            (Wrong::OfTheOldObject, _) => {
                usize::from(old != 0 && !present && at(&step.before, old - 1) + 1 == top)
            }
            (Wrong::OfTheValuePresent, Some(first)) if present => {
                usize::from(at(&step.before, first) + 1 == top)
            }
            _ => right,
        }
    }

    /// The same for calls that are no accepted store.
    fn elsewhere(self, step: &Step) -> usize {
        let accepted = step.reply.number == 0;
        match (self, step.call) {
            (Wrong::BirthsNever, Call::Allocate { .. }) => 0,
            (Wrong::BirthsAlways, Call::Allocate { .. }) if accepted => 1,
            (Wrong::InRefusals, Call::StoreRoot { .. } | Call::StoreCell { .. }) => 1,
            (Wrong::InCollections, Call::Collect) if accepted => 1,
            _ => step.reply.second,
        }
    }
}

#[test]
fn wrong_second_values_break_the_claims() {
    let mut noticed = [0; WRONG.len()];
    let [mut calls, mut told] = [0; 2];
    for (family, _) in FAMILIES {
        for seed in 0..40 {
            let desk = generate(family, seed, 120).unwrap();
            let [blocks, width, roots] = desk.header.map(|number| number as usize);
            let mut memory = fresh(blocks, width, roots);
            let entries = desk.entries.iter().map(|words| Entry::from_words(*words));
            for call in entries.filter_map(|entry| entry.call()) {
                let before = memory.clone();
                let reply = apply(blocks, width, &mut memory, call);
                let broken = |reply| broken_claim(blocks, width, &before, call, reply, &memory);
                assert_eq!(broken(reply), None);
                calls += 1;
                told += usize::from(reply.second == 1 && !matches!(call, Call::Look { .. }));
                let step = Step {
                    before: before.clone(),
                    call,
                    reply,
                    after: memory.clone(),
                };
                for (k, wrong) in WRONG.iter().enumerate() {
                    let second = wrong.second(blocks, width, &step);
                    if second != reply.second {
                        assert!(
                            broken(Reply { second, ..reply }).is_some(),
                            "{wrong:?}, {call:?}"
                        );
                        noticed[k] += 1;
                    }
                }
            }
        }
    }
    for (wrong, times) in WRONG.iter().zip(noticed) {
        assert!(times > 0, "{wrong:?} is never told apart");
    }
    say(&format!(
        "{told} moments in {calls} calls of every family; {} kinds of wrong second values, each noticed",
        WRONG.len()
    ));
}
