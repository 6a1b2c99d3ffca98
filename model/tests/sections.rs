//! Document 02, U4: "Sections with a largest size." The list after each call, the addresses, and 11.

mod common;
use common::{call_and_claims, fresh, say};
use model::lists::random::Random;
use model::rules::calls::short::{allocate, cell, chosen, look, root};
use model::rules::heap::{section_count, set_bit, set_count, Ref, MAX_NUMBER};
use model::rules::section_claims::{other_address, untrue_list};
use model::rules::sections::leave_list_true;
use model::{Call, Memory};

/// The replies' numbers and values of calls on a formatted heap of width 2 and 8 roots, and the heap.
fn made(blocks: usize, calls: &[Call]) -> (Vec<(usize, usize)>, Memory) {
    let mut memory = fresh(blocks, 2, 8);
    let mut replies = Vec::new();
    for call in calls {
        let reply = call_and_claims(blocks, 2, &mut memory, *call);
        replies.push((reply.number, reply.value));
    }
    (replies, memory)
}

/// The list that accepted calls leave.
fn list(blocks: usize, calls: &[Call]) -> Vec<Ref> {
    let (replies, memory) = made(blocks, calls);
    assert!(replies.iter().all(|reply| reply.0 == 0), "{replies:?}");
    memory.sections
}

/// "every accepted call, format too, leaves the list true", whatever stood there.
#[test]
fn formats() {
    for (blocks, due) in [
        (8, vec![8]),
        (128, vec![128]),
        (256, vec![256]),
        (512, vec![256; 2]),
        (1024, vec![256; 4]),
        (8192, vec![256; 32]),
        (65_536, vec![256; 256]),
    ] {
        let mut memory = Memory::zeros(blocks, 2, 8);
        assert_eq!(memory.sections.len(), due.len());
        for rubbish in [0, 7, MAX_NUMBER] {
            memory.sections.fill(rubbish);
            let reply = call_and_claims(blocks, 2, &mut memory, Call::Format);
            assert_eq!((reply.number, reply.value), (0, 0));
            assert_eq!(memory.sections, due);
        }
    }
}

/// "the size of its largest free aligned chunk, 0 if none"
#[test]
fn figures_by_hand() {
    let singles: Vec<Call> = (0..8).map(|r| allocate(1, r)).collect();
    let free = |blocks| [&singles[..], &[chosen(blocks)]].concat();
    for (calls, due) in [
        (vec![allocate(1, 0)], 4),
        (vec![allocate(2, 0), allocate(1, 1), allocate(3, 2)], 1),
        (vec![allocate(5, 0)], 2),
        (vec![allocate(8, 0)], 0),
        (singles.clone(), 0),
        // 1 to 6: a stretch of six blocks, but no chunk of four. 3 and 4: no chunk of two.
        (free(126), 2),
        (free(24), 1),
        (free(12), 2),
        (free(240), 4),
        (free(254), 4),
        (free(255), 8),
    ] {
        assert_eq!(list(8, &calls), [due], "{calls:?}");
    }
    assert_eq!(list(128, &[allocate(65, 0)]), [32]);
    assert_eq!(list(256, &[allocate(1, 0), allocate(128, 1)]), [64]);
    // 0 to 299 are used: 384 to 511 are left of the second section.
    assert_eq!(list(1024, &[allocate(300, 0)]), [0, 128, 256, 256]);
    assert_eq!(list(1024, &[allocate(700, 0)]), [0, 0, 64, 256]);
    assert_eq!(list(512, &[allocate(300, 0), root(0, 0)]), [256, 256]);
}

/// All maps of 16 blocks: the recursion on halves, each size and place tried, and the address for every size.
#[test]
fn all_maps_of_sixteen_blocks() {
    let mut memory = fresh(16, 1, 1);
    let mut met = [0; 17];
    for map in 0..256 * 256 {
        memory
            .a
            .copy_from_slice(&[(map % 256) as u8, (map / 256) as u8]);
        leave_list_true(16, &mut memory);
        assert_eq!(untrue_list(16, &memory), None);
        assert_eq!(other_address(16, &memory), None);
        met[memory.sections[0] as usize] += 1;
    }
    // Nothing is free; one of the two bytes, beside any of 255 that are not; all is.
    assert_eq!((met[0], met[8], met[16]), (1, 2 * 255, 1));
    say(&format!(
        "65536 maps of 16 blocks, by their figure: {met:?}"
    ));
}

/// The same of random maps of several sections.
#[test]
fn maps_of_several_sections() {
    let mut maps = 0;
    for seed in 0..120 {
        let mut random = Random::new(seed);
        let blocks = random.pick(&[256, 512, 1024, 2048, 8192]);
        let mut memory = fresh(blocks, 1, 1);
        // Mostly full, or mostly free, so that the figures differ.
        let used = random.pick(&[5, 50, 90, 98]);
        memory.a.fill_with(|| match random.percent(used) {
            true => random.pick(&[255, 255, 127, 254, 60]),
            false => 0,
        });
        leave_list_true(blocks, &mut memory);
        assert_eq!(untrue_list(blocks, &memory), None);
        assert_eq!(other_address(blocks, &memory), None);
        maps += 1;
        // An untrue number is noticed, wherever it stands.
        let k = random.below(memory.sections.len());
        memory.sections[k] ^= 1;
        assert!(untrue_list(blocks, &memory).is_some());
    }
    say(&format!("{maps} maps of up to 32 sections"));
}

/// "goes to the lowest section whose figure suffices"
#[test]
fn the_lowest_section() {
    let calls = [
        (allocate(1, 0), (0, 0)),
        // The lower section has 128 left.
        (allocate(256, 1), (0, 256)),
        (allocate(128, 2), (0, 128)),
        (allocate(129, 3), (5, 0)),
        (root(0, 0), (0, 1)),
        (allocate(128, 3), (0, 0)),
        (allocate(1, 4), (5, 0)),
    ];
    let (replies, memory) = made(512, &calls.map(|(call, _)| call));
    assert_eq!(replies, calls.map(|(_, due)| due));
    assert_eq!(memory.sections, [0, 0]);
    let calls = [
        (allocate(256, 0), (0, 0)),
        (allocate(1, 1), (0, 256)),
        (allocate(200, 2), (0, 512)),
        (allocate(100, 3), (0, 384)),
        (allocate(33, 4), (0, 320)),
    ];
    let (replies, memory) = made(1024, &calls.map(|(call, _)| call));
    assert_eq!(replies, calls.map(|(_, due)| due));
    assert_eq!(memory.sections, [0, 32, 32, 256]);
}

/// "Longer ones search as before." Sizes of 257 to 512 need a chunk of 512. At N = 512 both figures are 256 exactly where
/// all is free, and so these sizes are accepted exactly then; at N = 1,024 two neighbours may be free and no chunk of 512.
#[test]
fn longer_than_a_section() {
    let sizes = [257, 258, 300, 384, 511, 512];
    for blocks in [512, 1024] {
        let sections = blocks / 256;
        // Each set of sections with an object of one block, or of the whole section.
        for used in 0..1 << sections {
            for n in [1, 256] {
                let fill: Vec<Call> = (0..sections).map(|r| allocate(256, r)).collect();
                let free = |s: usize| used >> s & 1 == 0;
                let mut memory = made(blocks, &fill).1;
                call_and_claims(blocks, 2, &mut memory, chosen(255));
                for s in (0..sections).filter(|s| !free(*s)) {
                    put_object(blocks, &mut memory, 256 * s, n, s);
                }
                let whole = (0..sections).filter(|s| memory.sections[*s] == 256);
                assert!(whole.eq((0..sections).filter(|s| free(*s))));
                let pairs = (0..sections).step_by(2);
                let due = pairs.clone().find(|s| free(*s) && free(s + 1));
                for size in sizes {
                    let mut after = memory.clone();
                    let reply = call_and_claims(blocks, 2, &mut after, allocate(size, 7));
                    let got = (reply.number, reply.value);
                    assert_eq!(
                        got,
                        due.map_or((5, 0), |s| (0, 256 * s)),
                        "{used:b}, {size}"
                    );
                }
                if used == 0 {
                    assert_eq!(due, Some(0));
                }
                // Two figures of 256 side by side, and none of 512.
                if blocks == 1024 && used == 9 {
                    assert_eq!((memory.sections[1], memory.sections[2]), (256, 256));
                    assert_eq!(due, None);
                }
            }
        }
    }
    // All of 1,024, and a size between.
    assert_eq!(made(1024, &[allocate(513, 0)]).0, [(0, 0)]);
    let middle = [allocate(1, 0), allocate(513, 1), allocate(512, 1)];
    assert_eq!(made(1024, &middle).0, [(0, 0), (5, 0), (0, 512)]);
}

/// An object of n blocks, written by hand into a free place and into a root.
fn put_object(blocks: usize, memory: &mut Memory, first: usize, n: usize, r: usize) {
    (first..first + n).for_each(|i| set_bit(&mut memory.a, i, 1));
    set_bit(&mut memory.b, first + n - 1, 0);
    set_count(blocks, 2, memory, first, 1);
    memory.roots[r] = 1 + first as Ref;
    leave_list_true(blocks, memory);
}

/// The list after each call that writes.
#[test]
fn after_each_writing_call() {
    // 1 block at 0 in root 0, 4 at 4 in root 1, named by cell 0 of the first one too: blocks 1 to 3 are free.
    let held = [allocate(1, 0), allocate(4, 1), cell(0, 0, 5)];
    let cycle = [cell(4, 0, 1), root(0, 0), root(1, 0)];
    for (end, due) in [
        (&[][..], 2),
        (&[root(1, 0)], 2),
        (&[root(1, 0), root(0, 0)], 8),
        (&[chosen(3)], 8),
        (&[chosen(1)], 4),
        (&[root(1, 0), cell(0, 0, 0)], 4),
        (&cycle, 2),
        (&[cycle[0], cycle[1], cycle[2], Call::Collect], 8),
        (&[cycle[0], cycle[1], cycle[2], cell(4, 0, 0)], 8),
        (&[Call::Collect], 2),
        // Allocations that free: the new object stands at 1, the old ones go.
        (&[root(1, 0), allocate(1, 0)], 4),
        (&[allocate(1, 0), allocate(1, 1), root(0, 0)], 4),
        // The values that are there.
        (&[root(1, 5), cell(0, 0, 5), root(3, 0)], 2),
    ] {
        assert_eq!(list(8, &[&held[..], end].concat()), [due], "{end:?}");
    }
    for (blocks, calls, due) in [
        (512, vec![allocate(256, 0), allocate(256, 0)], vec![256, 0]),
        (
            1024,
            vec![allocate(300, 0), allocate(300, 0)],
            vec![256, 256, 0, 128],
        ),
        (
            1024,
            vec![allocate(300, 0), allocate(300, 1), chosen(3)],
            vec![256; 4],
        ),
        (
            1024,
            vec![
                allocate(300, 0),
                cell(0, 1199, 1),
                root(0, 0),
                Call::Collect,
            ],
            vec![256; 4],
        ),
    ] {
        assert_eq!(list(blocks, &calls), due);
    }
}

/// Every call but format, as accepted on a heap with an object at 0 in root 0.
const ACCEPTED: [Call; 8] = [
    Call::Check,
    Call::Allocate { n: 1, r: 1 },
    Call::StoreRoot { r: 0, v: 0 },
    Call::StoreCell { a: 0, j: 0, v: 1 },
    Call::Collect,
    Call::Look { a: 0 },
    Call::FreeBlocks,
    Call::ReturnRoots { chosen: 1 },
];

/// "11, the list doesn't match the maps", in one place by one: every call but format, and it changes nothing.
#[test]
fn untrue_by_one_in_every_call() {
    let mut refused = 0;
    for (blocks, n) in [(8, 2), (128, 100), (256, 7), (512, 300), (8192, 5000)] {
        let sound = made(blocks, &[allocate(n, 0)]).1;
        for k in 0..section_count(blocks) {
            for by in [1, Ref::MAX] {
                let mut untrue = sound.clone();
                untrue.sections[k] = sound.sections[k].wrapping_add(by);
                untrue.waiting.fill(9);
                for call in ACCEPTED {
                    let mut memory = untrue.clone();
                    let reply = call_and_claims(blocks, 2, &mut memory, call);
                    assert_eq!((reply.number, reply.value, reply.second), (11, 0, 0));
                    assert_eq!(memory, untrue, "{call:?}");
                    refused += 1;
                }
                call_and_claims(blocks, 2, &mut untrue, Call::Format);
                assert_eq!(untrue, fresh(blocks, 2, 8));
            }
        }
        for call in ACCEPTED {
            let reply = call_and_claims(blocks, 2, &mut sound.clone(), call);
            assert_eq!(reply.number, 0, "{call:?}");
        }
    }
    say(&format!("{refused} calls with a list untrue by one: 11"));
}

/// Each set of the four faults, in the order in which they are refused: 1 (the length of the list too), 2, 11, the call's own.
#[test]
fn first_of_one_two_eleven_and_its_own() {
    let own = [
        (allocate(0, 8), 3),
        (allocate(1, 8), 4),
        (allocate(8, 0), 5),
        (root(8, 9), 4),
        (root(0, 9), 8),
        (cell(1, 9, 9), 6),
        (cell(0, 8, 9), 7),
        (cell(0, 0, 9), 8),
        (look(1), 6),
        (chosen(256), 4),
    ];
    for faults in 0..16 {
        let has = |k: usize| faults >> k & 1 == 1;
        let mut memory = made(8, &[allocate(2, 0)]).1;
        if has(1) {
            memory.cells[31] = 1;
        }
        if has(2) {
            memory.sections[0] += 1;
        }
        if has(0) {
            memory.sections.push(0);
        }
        let first = [(0, 1), (1, 2), (2, 11)].into_iter().find(|(k, _)| has(*k));
        let calls: Vec<(Call, usize)> = match has(3) {
            true => own.to_vec(),
            false => ACCEPTED.map(|call| (call, 0)).to_vec(),
        };
        for (call, number) in calls {
            let mut after = memory.clone();
            let reply = call_and_claims(8, 2, &mut after, call);
            let due = first.map_or(number, |(_, number)| number);
            assert_eq!(reply.number, due, "{call:?}, faults {faults:b}");
            let value = if due == 2 { 4 } else { 0 };
            assert!(due == 0 || reply.value == value && after == memory);
        }
    }
    say("each set of the faults 1, 2, 11 and a call's own, in every call");
}
