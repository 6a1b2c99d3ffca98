//! Document 02, U2: the claim about whole lists that the store of the value present makes true, and heaps for which
//! it is false.

mod common;
use common::{fresh, say};
use model::lists::families::{generate, FAMILIES};
use model::lists::file::Entry;
use model::rules::calls::short::{allocate, cell, root};
use model::rules::claims::objects;
use model::rules::counting::{count_up, longest_waiting, release};
use model::rules::heap::*;
use model::rules::list_claims::{before_letting_go, unduly_stuck, Step};
use model::rules::sections::leave_list_true;
use model::{apply, Call, Memory, Reply};

/// What a heap does otherwise than the rules, if anything.
#[derive(Clone, Copy, Debug, PartialEq)]
enum Heap {
    AsRuled,
    /// Document 01's own store, in which P9's second half ends at 3.
    NoTest,
    TestInRootsOnly,
    TestInCellsOnly,
    /// Only a store of 0 over 0 is tested for.
    TestForZeroOnly,
    /// The value present is counted up, and not down again.
    CountedUpOnly,
    /// A count that comes to one below the capacity is stuck.
    StuckOneEarly,
    CollectionGivesOneMore,
}

const WRONG: [Heap; 7] = [
    Heap::NoTest,
    Heap::TestInRootsOnly,
    Heap::TestInCellsOnly,
    Heap::TestForZeroOnly,
    Heap::CountedUpOnly,
    Heap::StuckOneEarly,
    Heap::CollectionGivesOneMore,
];

impl Heap {
    /// Whether it tests for the value present in this store.
    fn tests(self, in_root: bool, v: Ref) -> bool {
        match self {
            Heap::NoTest | Heap::CountedUpOnly => false,
            Heap::TestInRootsOnly => in_root,
            Heap::TestInCellsOnly => !in_root,
            Heap::TestForZeroOnly => v == 0,
            Heap::AsRuled | Heap::StuckOneEarly | Heap::CollectionGivesOneMore => true,
        }
    }

    /// One call. Refusals, and calls that the heap has right, are the model's.
    fn apply(self, blocks: usize, width: usize, memory: &mut Memory, call: Call) -> Reply {
        let before = memory.clone();
        let reply = apply(blocks, width, memory, call);
        if self == Heap::AsRuled || reply.number != 0 {
            return reply;
        }
        match call {
            Call::StoreRoot { r, v } => {
                *memory = before;
                self.store(blocks, width, memory, (true, r), v as Ref)
            }
            Call::StoreCell { a, j, v } => {
                *memory = before;
                self.store(blocks, width, memory, (false, 4 * a + j), v as Ref)
            }
            Call::Collect if self == Heap::CollectionGivesOneMore => {
                for (first, _) in objects(blocks, memory) {
                    let more = count(blocks, width, memory, first) + 1;
                    set_count(blocks, width, memory, first, more.min(capacity(width)));
                }
                reply
            }
            _ => reply,
        }
    }

    /// An accepted store in a root or, `in_root` being false, in a cell.
    fn store(
        self,
        blocks: usize,
        width: usize,
        memory: &mut Memory,
        (in_root, index): (bool, usize),
        v: Ref,
    ) -> Reply {
        let free = free_count(blocks, memory);
        let list = if in_root {
            &mut memory.roots
        } else {
            &mut memory.cells
        };
        let old = std::mem::replace(&mut list[index], v);
        if old != v || !self.tests(in_root, v) {
            count_up(blocks, width, memory, v);
            if self == Heap::StuckOneEarly && v != 0 {
                let first = v as usize - 1;
                if count(blocks, width, memory, first) + 1 == capacity(width) {
                    set_count(blocks, width, memory, first, capacity(width));
                }
            }
            if old != v || self != Heap::CountedUpOnly {
                release(blocks, width, memory, old, &mut longest_waiting);
            }
        }
        memory.waiting.fill(0);
        leave_list_true(blocks, memory);
        Reply {
            number: 0,
            value: free_count(blocks, memory) - free,
            second: 0,
        }
    }

    /// The calls of a list on a formatted heap.
    fn steps(self, blocks: usize, width: usize, roots: usize, calls: &[Call]) -> Vec<Step> {
        let mut memory = fresh(blocks, width, roots);
        let mut steps = Vec::new();
        for call in calls {
            let before = memory.clone();
            let reply = self.apply(blocks, width, &mut memory, *call);
            steps.push(Step {
                before,
                call: *call,
                reply,
                after: memory.clone(),
            });
        }
        steps
    }
}

/// The number of objects that come to the capacity, call by call.
fn moments(blocks: usize, width: usize, steps: &[Step]) -> usize {
    let stuck = |memory: &Memory, first| count(blocks, width, memory, first) == capacity(width);
    let number = |step: &Step| {
        let both = &objects(blocks, &step.before) & &objects(blocks, &step.after);
        let came = |first| !stuck(&step.before, first) && stuck(&step.after, first);
        both.into_iter().filter(|(first, _)| came(*first)).count()
    };
    steps.iter().map(number).sum()
}

/// Lists of all families, carried out by a heap: how many, in how many of them the claim is false, and how many
/// objects come to the capacity.
fn try_lists(heap: Heap) -> [usize; 3] {
    let [mut lists, mut broken, mut moments] = [0; 3];
    for (family, _) in FAMILIES {
        for seed in 0..40 {
            // The list's calls alone, from a formatted heap, as in demand 3.
            let desk = generate(family, seed, 120).unwrap();
            let [blocks, width, roots] = desk.header.map(|number| number as usize);
            let calls: Vec<Call> = desk
                .entries
                .iter()
                .filter_map(|words| Entry::from_words(*words).call())
                .collect();
            let steps = heap.steps(blocks, width, roots, &calls);
            lists += 1;
            moments += self::moments(blocks, width, &steps);
            let what = unduly_stuck(blocks, width, &steps, before_letting_go);
            broken += usize::from(what.is_some());
        }
    }
    [lists, broken, moments]
}

#[test]
fn the_claim_holds_in_every_family() {
    let [lists, broken, moments] = try_lists(Heap::AsRuled);
    assert_eq!(broken, 0);
    assert!(moments > 200, "{moments}");
    say(&format!(
        "U2's claim over {lists} whole lists of every family, in which {moments} objects come to the capacity"
    ));
}

#[test]
fn the_claim_is_false_for_wrong_heaps() {
    for heap in WRONG {
        let [lists, broken, _] = try_lists(heap);
        assert!(broken > 0, "{heap:?}");
        say(&format!(
            "U2's claim is false for {heap:?} in {broken} of {lists} lists"
        ));
    }
}

/// P9 tells the rule from document 01's own store, in a root and in a cell.
#[test]
fn the_claim_is_false_without_the_rule() {
    let in_root = [allocate(1, 0), root(1, 1), root(1, 1)];
    let in_cell = [allocate(1, 0), cell(0, 3, 1), cell(0, 3, 1)];
    for calls in [in_root, in_cell] {
        let is_false = |heap: Heap| {
            let steps = heap.steps(8, 2, 4, &calls);
            unduly_stuck(8, 2, &steps, before_letting_go).is_some()
        };
        assert!(!is_false(Heap::AsRuled));
        assert!(is_false(Heap::NoTest));
    }
}

/// X at 0 in root 0, Y at 1 in root 1, cell 0 of X names Y; Y is stored in root 0. It goes to 3 with three
/// references; then X is freed, and Y stands at 3 with two.
#[test]
fn the_claim_is_false_counted_after_the_call() {
    let calls = [allocate(1, 0), allocate(1, 1), cell(0, 0, 2), root(0, 2)];
    let steps = Heap::AsRuled.steps(8, 2, 4, &calls);
    let last = steps.last().unwrap();
    assert_eq!((last.reply.number, last.reply.value), (0, 1));
    assert_eq!(count(8, 2, &last.after, 1), 3);
    assert_eq!(
        model::rules::counting::references(8, &last.after.cells, &last.after)[1],
        2
    );
    assert_eq!(unduly_stuck(8, 2, &steps, before_letting_go), None);
    let after = |step: &Step| step.after.clone();
    assert!(unduly_stuck(8, 2, &steps, after).is_some());
}
