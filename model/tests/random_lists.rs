//! Demand 3's claims after every call of random lists, of all families.

mod common;
use common::{call_and_claims, fresh, say};
use model::lists::families::{generate, FAMILIES};
use model::lists::file::{Bench, Entry};
use model::lists::generate::Desk;
use model::lists::random::Random;
use model::rules::heap::Ref;
use model::{apply, Call};

#[test]
fn claims_in_every_family() {
    for (family, _) in FAMILIES
        .into_iter()
        .chain([("mixed", model::lists::families::random as _)])
    {
        let (mut calls, mut numbers, mut kinds, mut freed) = (0, [0; 15], [0; 8], 0);
        let lists = if family == "random" { 200 } else { 60 };
        for seed in 0..lists {
            let entries = if family == "mixed" { 500 } else { 200 };
            let desk = generate(family, seed, entries).unwrap();
            assert_eq!(desk.entries.len(), entries);
            let [blocks, width, roots] = desk.header;
            let mut bench = Bench::new(blocks, width, roots).unwrap();
            for words in desk.entries {
                match Entry::from_words(words) {
                    Entry::Call(call) => {
                        let (blocks, width) = (bench.blocks, bench.width);
                        let reply = call_and_claims(blocks, width, &mut bench.memory, call);
                        calls += 1;
                        numbers[reply.number] += 1;
                        if reply.number == 2 {
                            kinds[reply.value] += 1;
                        }
                        if let (
                            0,
                            Call::StoreRoot { .. }
                            | Call::StoreCell { .. }
                            | Call::Collect
                            | Call::ReturnRoots { .. },
                        ) = (reply.number, call)
                        {
                            freed += reply.value;
                        }
                    }
                    Entry::Load {
                        buffer,
                        index,
                        value,
                    } => assert!(bench.load(buffer, index, value)),
                    Entry::Length { buffer, length } => assert!(bench.set_length(buffer, length)),
                    Entry::New {
                        blocks,
                        width,
                        roots,
                    } => bench = Bench::new(blocks, width, roots).unwrap(),
                    // Only huge arguments have them.
                    Entry::NumberOutOfRange => {
                        assert!(["huge-arguments", "mixed"].contains(&family))
                    }
                    Entry::Reason { .. }
                    | Entry::Shape { .. }
                    | Entry::Copy { .. }
                    | Entry::Unknown(_) => {
                        panic!("an entry of no family")
                    }
                }
            }
        }
        say(&format!(
            "{family}: {lists} lists, {calls} calls with claims, replies by number {numbers:?}, kinds {kinds:?}, {freed} blocks freed"
        ));
    }
}

/// Heaps of demand 3's own kind: no loads, no wrong lengths, each size and width.
#[test]
fn claims_at_each_size_and_width() {
    let (mut calls, mut lists) = (0, 0);
    for blocks in [8, 16, 32, 64, 128, 256] {
        for width in 1..=4 {
            for seed in 0..4 {
                let roots = [1, 3, 8, 64][seed as usize];
                let mut desk = Desk::new(Random::new(seed), [blocks, width, roots]);
                desk.call(Call::Format);
                for _ in 0..150 {
                    let call = desk.some_call();
                    let bench = &mut desk.bench;
                    call_and_claims(bench.blocks, bench.width, &mut bench.memory, call);
                    calls += 1;
                }
                lists += 1;
            }
        }
    }
    say(&format!(
        "each size to 256, each width: {lists} lists, {calls} calls with claims"
    ));
}

/// "The waiting list may hold anything on entry", and nothing depends on it.
#[test]
fn nothing_depends_on_the_waiting_list() {
    let mut calls = 0;
    for seed in 0..40 {
        let width = 1 + seed as usize % 4;
        let mut desk = Desk::new(Random::new(seed), [16, width as u64, 3]);
        desk.bench.memory = fresh(16, width, 3);
        for _ in 0..100 {
            let mut rubbish = desk.bench.memory.clone();
            rubbish.waiting.fill_with(|| desk.random.word() as Ref);
            let waiting = rubbish.waiting.clone();
            let call = desk.some_call();
            let reply = apply(16, width, &mut rubbish, call);
            assert_eq!(reply, desk.call(call));
            assert!(rubbish.same_but_for_waiting(&desk.bench.memory));
            if reply.number != 0 || !call.clears_waiting_list() {
                assert_eq!(rubbish.waiting, waiting);
            } else {
                assert!(rubbish.waiting.iter().all(|v| *v == 0));
            }
            calls += 1;
        }
    }
    say(&format!("rubbish in the waiting list: {calls} calls twice"));
}
