//! What no root reaches, by what holds it.

mod common;
use common::fresh;
use common::say;
use model::history::garbage::{garbage, left as left_by_history};
use model::history::record::{bytes, short as record, RECORD};
use model::history::run::{run, BLOCKS, ROOTS, WIDTH};
use model::history::vectors::histories;
use model::history::Run;
use model::lists::random::Random;
use model::rules::collection::reached;
use model::rules::heap::{first_blocks, Ref, MAX_BLOCKS};
use model::texts::trace;
use model::{apply, Call, Memory, Reply};
use std::collections::{BTreeMap, BTreeSet};

/// The garbage that a list of calls leaves on 16 blocks with 4 roots: held by stuck counts alone, by cycles alone, by both.
fn left(width: usize, calls: &[Call]) -> [Vec<usize>; 3] {
    let mut memory = fresh(16, width, 4);
    for call in calls {
        assert_eq!(apply(16, width, &mut memory, *call).number, 0, "{call:?}");
    }
    let found = garbage(16, width, &memory);
    [found.stuck, found.cycles, found.both].map(|set| set.into_iter().collect())
}

fn allocate(n: usize, r: usize) -> Call {
    Call::Allocate { n, r }
}

fn name(v: usize, a: usize, j: usize) -> Call {
    Call::StoreCell { a, j, v: 1 + v }
}

fn clear(r: usize) -> Call {
    Call::StoreRoot { r, v: 0 }
}

#[test]
fn stuck_and_let_go() {
    // P4 and P6.
    let shared = [
        allocate(2, 0),
        Call::StoreRoot { r: 1, v: 1 },
        Call::StoreRoot { r: 2, v: 1 },
    ];
    let cleared = [clear(0), clear(1), clear(2)];
    assert_eq!(
        left(2, &[&shared[..], &cleared].concat()),
        [vec![0], vec![], vec![]]
    );
    assert_eq!(
        left(3, &[&shared[..], &cleared].concat()),
        [vec![], vec![], vec![]]
    );
    assert_eq!(
        left(1, &[allocate(1, 0), clear(0)]),
        [vec![0], vec![], vec![]]
    );
    // Stuck and reached is no garbage.
    assert_eq!(
        left(2, &[&shared[..], &cleared[..2]].concat()),
        [vec![], vec![], vec![]]
    );
}

#[test]
fn a_cycle() {
    // P7, with an object behind it.
    let pair = [allocate(1, 0), allocate(1, 1), name(1, 0, 0), name(0, 1, 0)];
    let behind = [allocate(1, 2), name(2, 1, 1), clear(2)];
    let cleared = [clear(0), clear(1)];
    assert_eq!(
        left(3, &[&pair[..], &behind, &cleared].concat()),
        [vec![], vec![0, 1, 2], vec![]]
    );
    assert_eq!(
        left(3, &[&pair[..], &behind, &cleared[..1]].concat()),
        [vec![], vec![], vec![]]
    );
}

#[test]
fn what_a_stuck_object_leads_to() {
    // 0 is stuck by its three references, and names 1, which names 2 and itself. 3 names itself, and 0 too.
    let objects = [
        allocate(1, 0),
        allocate(1, 1),
        allocate(1, 2),
        allocate(1, 3),
    ];
    let names = [
        name(1, 0, 0),
        name(2, 1, 0),
        name(1, 1, 1),
        name(3, 3, 0),
        name(0, 3, 1),
        name(0, 3, 2),
    ];
    let cleared = [clear(0), clear(1), clear(2), clear(3)];
    let all = [&objects[..], &names, &cleared].concat();
    // All are behind the cycle of 3; 0 is stuck, and leads to 1 and 2.
    assert_eq!(left(2, &all), [vec![], vec![3], vec![0, 1, 2]]);
    // A root on 2: it is reached, though stuck objects lead to it.
    let all = [&objects[..], &names, &cleared[..2], &cleared[3..]].concat();
    assert_eq!(left(2, &all), [vec![], vec![3], vec![0, 1]]);
    assert_eq!(left(3, &all), [vec![], vec![0, 1, 3], vec![]]);
}

#[test]
fn one_of_each() {
    // 0 is stuck and names 1: held by stuck counts. 2 names itself and 3: held by cycles. 4 is stuck and names itself: both.
    let objects = (0..4).map(|k| allocate(1, k)).collect::<Vec<_>>();
    let shared = [
        name(1, 0, 0),
        Call::StoreRoot { r: 1, v: 1 },
        Call::StoreRoot { r: 1, v: 0 },
        name(2, 2, 0),
        name(3, 2, 1),
        clear(2),
        clear(3),
        allocate(1, 1),
        name(4, 4, 0),
        name(4, 4, 1),
        clear(1),
    ];
    // Root 0 names 0 still; a third reference makes it stuck.
    let stuck = [
        Call::StoreRoot { r: 2, v: 1 },
        Call::StoreRoot { r: 3, v: 1 },
        clear(0),
        clear(2),
        clear(3),
    ];
    let all = [&objects[..], &shared, &stuck].concat();
    assert_eq!(left(2, &all), [vec![0, 1], vec![2, 3], vec![4]]);
    assert_eq!(left(3, &all), [vec![], vec![2, 3, 4], vec![]]);
}

/// A heap of objects whose counts have no limit, carried along with a history on one of limited counts: what is freed here and
/// stands there is what unlimited counts would have freed.
#[derive(Default)]
struct Unlimited {
    /// The object that stands at a block of the heap.
    at: BTreeMap<usize, usize>,
    /// What each object's cells name, by objects; and its count. A freed object has neither.
    cells: BTreeMap<usize, Vec<Option<usize>>>,
    counts: BTreeMap<usize, usize>,
    roots: Vec<Option<usize>>,
    made: usize,
}

impl Unlimited {
    fn named(&self, v: usize) -> Option<usize> {
        (v != 0).then(|| self.at[&(v - 1)])
    }

    /// "First the object named by v, if v isn't 0, is counted up; then the cell is written; then the old object, if any, is
    /// counted down."
    fn up(&mut self, object: Option<usize>) {
        if let Some(object) = object {
            *self
                .counts
                .get_mut(&object)
                .expect("a reached object lives") += 1;
        }
    }

    fn down(&mut self, object: Option<usize>) {
        let mut to_let_go: Vec<usize> = object.into_iter().collect();
        while let Some(object) = to_let_go.pop() {
            let count = self.counts.get_mut(&object).expect("it is named");
            *count -= 1;
            if *count == 0 {
                self.counts.remove(&object);
                let cells = self.cells.remove(&object).expect("it has cells");
                to_let_go.extend(cells.into_iter().flatten());
            }
        }
    }

    /// A call that the heap accepted.
    fn call(&mut self, call: Call, reply: Reply) {
        match call {
            Call::Allocate { n, r } | Call::AllocateData { n, r } => {
                let new = self.made;
                self.made += 1;
                self.at.insert(reply.value, new);
                self.cells.insert(new, vec![None; 4 * n]);
                self.counts.insert(new, 1);
                let old = self.roots[r].replace(new);
                self.down(old);
            }
            Call::StoreRoot { r, v } => {
                let new = self.named(v);
                self.up(new);
                let old = std::mem::replace(&mut self.roots[r], new);
                self.down(old);
            }
            Call::StoreCell { a, j, v } => {
                let (owner, new) = (self.at[&a], self.named(v));
                self.up(new);
                let cells = self.cells.get_mut(&owner).expect("the owner is reached");
                let old = std::mem::replace(&mut cells[j], new);
                self.down(old);
            }
            Call::Collect => self.collect(),
            // Numbers name nothing (U6).
            Call::WriteNumber { .. } => {}
            _ => panic!("no call of a history: {call:?}"),
        }
    }

    fn collect(&mut self) {
        let mut reached = BTreeSet::new();
        let mut to_follow: Vec<usize> = self.roots.iter().flatten().copied().collect();
        while let Some(object) = to_follow.pop() {
            if reached.insert(object) {
                to_follow.extend(self.cells[&object].iter().flatten());
            }
        }
        self.cells.retain(|object, _| reached.contains(object));
        let named = self.roots.iter().chain(self.cells.values().flatten());
        self.counts = reached.iter().map(|object| (*object, 0)).collect();
        for object in named.flatten() {
            *self.counts.get_mut(object).expect("it is reached") += 1;
        }
    }
}

/// Records that mostly can be run, on few roots, so that objects are shared, cycles are closed and much is let go.
fn tangled_history(random: &mut Random, records: usize, roots: usize) -> Vec<u8> {
    let mut operations = Vec::new();
    for _ in 0..records {
        let d = random.below(roots) as u8;
        let s = random.below(roots) as u8;
        let c = random.below(4) as Ref;
        operations.push(match random.below(100) {
            0..=25 => record::allocate(1 + random.below(2) as Ref, d),
            26..=29 => record::data(1 + random.below(2) as Ref, d),
            30..=44 => record::copy(s, d),
            45..=70 => record::write(s, c, d),
            71..=74 => record::write_number(1 + random.below(8) as Ref, c, d),
            75..=84 => record::read(c, s, d),
            85..=98 => record::clear(d),
            _ => record::COLLECT,
        });
    }
    bytes(&operations)
}

/// Runs a history on a heap with unlimited counts beside it, record by record, and passes over the records that are refused.
/// What stands in the heap and was freed beside it is the part held by stuck counts alone; this holds after every record.
fn held_against_unlimited(blocks: usize, width: usize, roots: usize, history: &[u8]) -> [usize; 3] {
    let mut memory = fresh(blocks, width, roots);
    let mut beside = Unlimited {
        roots: vec![None; roots],
        ..Unlimited::default()
    };
    let mut met = [0; 3];
    for record in history.chunks(RECORD) {
        run(
            blocks,
            &mut memory,
            Run::default(),
            record,
            &mut |memory, call| {
                let reply = apply(blocks, width, memory, call);
                if reply.number == 0 {
                    beside.call(call, reply);
                }
                reply
            },
        );
        let found = garbage(blocks, width, &memory);
        let standing = first_blocks(blocks, &memory);
        let freed: BTreeSet<usize> = standing
            .iter()
            .filter(|first| !beside.counts.contains_key(&beside.at[first]))
            .copied()
            .collect();
        assert_eq!(found.stuck, freed, "after {record:?}");
        // Nothing else was freed beside it.
        assert_eq!(standing.len() - freed.len(), beside.counts.len());
        for (met, part) in met
            .iter_mut()
            .zip([&found.stuck, &found.cycles, &found.both])
        {
            *met += usize::from(!part.is_empty());
        }
    }
    met
}

#[test]
fn what_unlimited_counts_would_have_freed() {
    let mut random = Random::new(31);
    let mut met = [0; 3];
    for k in 0..200 {
        let (width, roots) = (1 + k % 4, 2 + random.below(5));
        let history = tangled_history(&mut random, 120, roots);
        let blocks = random.pick(&[16, 32, 64]) as usize;
        for (sum, part) in met
            .iter_mut()
            .zip(held_against_unlimited(blocks, width, roots, &history))
        {
            *sum += part;
        }
    }
    assert!(met.iter().all(|part| *part > 500), "{met:?}");
    say(&format!(
        "24,000 records of 200 histories with unlimited counts beside them; heaps with garbage held by stuck counts alone, by cycles \
         alone, by both: {met:?}"
    ));
}

#[test]
fn garbage_of_a_history() {
    let line = |shape, bytes: &[u8]| left_by_history(shape, bytes);
    // P6, P7: allocate 1 into 0, clear 0.
    let p6 = bytes(&[record::allocate(1, 0), record::clear(0)]);
    assert_eq!(
        line([8, 1, 4], &p6).unwrap(),
        "1 1 1 0 1 1\n1 1 | 0 0 | 0 0\n"
    );
    assert_eq!(
        line([8, 2, 4], &p6).unwrap(),
        "1 1 1 0 1 0\n0 0 | 0 0 | 0 0\n"
    );
    for shape in [
        [12, 1, 4],
        [2 * MAX_BLOCKS, 1, 4],
        [8, 5, 4],
        [8, 0, 4],
        [8, 1, 0],
        [8, 1, 65],
    ] {
        assert_eq!(line(shape, &p6), None);
    }
    // The lines are those of the program, at its shape.
    for history in histories().iter().step_by(40) {
        let text = left_by_history([BLOCKS, WIDTH, ROOTS], &history.bytes).unwrap();
        assert_eq!(
            text.lines().next().unwrap(),
            model::history::report(&history.bytes).trim_end()
        );
    }
}

#[test]
fn every_unreached_object_is_in_one_part() {
    for line in trace::garbage(3, 200).lines() {
        let fields: Vec<Vec<usize>> = line
            .split(" | ")
            .map(|field| {
                field
                    .split_whitespace()
                    .map(|word| word.parse().unwrap())
                    .collect()
            })
            .collect();
        let (blocks, width) = (fields[0][0], fields[0][1]);
        let bytes = |k: usize| fields[k].iter().map(|number| *number as u8).collect();
        let words = |k: usize| fields[k].iter().map(|number| *number as Ref).collect();
        let memory = Memory {
            a: bytes(1),
            b: bytes(2),
            counts: bytes(3),
            cells: words(4),
            roots: words(5),
            waiting: words(6),
            sections: words(7),
            data: bytes(8),
            marks: bytes(9),
            list: words(10),
        };
        let found = garbage(blocks, width, &memory);
        assert!(line.ends_with(&found.text(blocks, &memory)));
        let mut all = reached(blocks, &memory);
        assert_eq!(
            all.len() + found.stuck.len() + found.cycles.len() + found.both.len(),
            first_blocks(blocks, &memory).len()
        );
        all.extend(&found.stuck);
        all.extend(&found.cycles);
        all.extend(&found.both);
        assert_eq!(
            all.into_iter().collect::<Vec<_>>(),
            first_blocks(blocks, &memory)
        );
    }
}
