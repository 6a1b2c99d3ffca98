//! "Small heaps on paper": the cases P1 to P11 of document 01, with the replies and bytes that it gives.
//!
//! "N is 8, w is 2 and there are 4 roots unless said; bytes in decimal."

use crate::rules::calls::Call;

/// One line of a case.
#[derive(Clone, Copy, Debug, PartialEq, Eq)]
pub enum Step {
    /// This call must give this number, value and second value.
    Gives(Call, usize, usize, usize),
    /// The bytes of the A-map and the B-map must be these now.
    Maps(u8, u8),
    /// These blocks, and no others, must be free now.
    Free(&'static [usize]),
    /// The bytes of the A-map and the B-map are overwritten with these.
    Given(u8, u8),
}

impl Step {
    /// Whether the line reads the maps.
    pub fn reads_maps(self) -> bool {
        matches!(self, Step::Maps(..) | Step::Free(_))
    }
}

/// A case: its name, its count width, and its lines, from a heap of 8 blocks and 4 roots, not yet formatted.
pub struct Case {
    pub name: &'static str,
    pub width: usize,
    /// The lines of the case before, where this one goes on from there: "Then".
    pub before: Vec<Step>,
    pub steps: Vec<Step>,
}

/// A part of a case, on a heap of its own.
pub struct Part {
    /// What is carried out once more, to get there.
    pub again: Vec<Step>,
    /// The lines that are new. Only the last one may read the maps.
    pub steps: Vec<Step>,
}

impl Case {
    /// The program `calls` prints the maps of a heap only where that heap ends. So a case comes in parts, one up to
    /// each line that reads the maps, and each starts again on a new heap.
    pub fn parts(&self) -> Vec<Part> {
        let mut again: Vec<Step> = self.before.clone();
        let mut parts = Vec::new();
        for steps in self.steps.split_inclusive(|step| step.reads_maps()) {
            again.retain(|step| !step.reads_maps());
            parts.push(Part {
                again: again.clone(),
                steps: steps.to_vec(),
            });
            again.extend(steps);
        }
        parts
    }
}

pub const BLOCKS: usize = 8;
pub const ROOTS: usize = 4;

/// All cases, in document 01's order.
pub fn cases() -> Vec<Case> {
    use Step::{Free, Given, Gives, Maps};
    let fresh = Gives(Call::Format, 0, 0, 0);
    let allocate = |n, r, number, value| Gives(Call::Allocate { n, r }, number, value, 0);
    let root = |r, v, value| Gives(Call::StoreRoot { r, v }, 0, value, 0);
    // Document 02, U5: the same, and "this very step brought the count to the capacity".
    let sticking = |step| match step {
        Gives(call, number, value, 0) => Gives(call, number, value, 1),
        other => other,
    };
    let cell = |a, j, v, number| Gives(Call::StoreCell { a, j, v }, number, 0, 0);
    let look = |a, size, count| Gives(Call::Look { a }, 0, size, count);
    let nothing_at = |a| Gives(Call::Look { a }, 6, 0, 0);
    let collect = |value| Gives(Call::Collect, 0, value, 0);
    let free = |value| Gives(Call::FreeBlocks, 0, value, 0);
    let case = |name, width, steps| Case {
        name,
        width,
        before: Vec::new(),
        steps,
    };
    // "P1. Fresh; allocate 2 into root 0: block 0. Allocate 1 into root 1: block 2. Allocate 3 into root 2: block 4.
    // A = 119, B = 185. Look at 4: size 3, count 1."
    let p1 = vec![
        fresh,
        allocate(2, 0, 0, 0),
        allocate(1, 1, 0, 2),
        allocate(3, 2, 0, 4),
        Maps(119, 185),
        look(4, 3, 1),
    ];
    // "P2. Then allocate 2 into root 3: refused 5, with blocks 3 and 7 free. Allocate 1 into root 3: block 3."
    let p2 = Case {
        name: "P2",
        width: 2,
        before: p1.clone(),
        steps: vec![
            allocate(2, 3, 5, 0),
            Free(&[3, 7]),
            free(2),
            allocate(1, 3, 0, 3),
        ],
    };
    vec![
        case("P1", 2, p1),
        p2,
        case(
            "P3",
            2,
            vec![
                // "P3. Fresh; allocate 5: block 0. Allocate 3 elsewhere: refused 5. Allocate 2 elsewhere:
                // block 6."
                fresh,
                allocate(5, 0, 0, 0),
                allocate(3, 1, 5, 0),
                allocate(2, 1, 0, 6),
            ],
        ),
        case(
            "P4",
            2,
            vec![
                // "P4. One object in roots 0, 1, 2 has count 3; with all three cleared its count is still 3;
                // collect frees it."
                fresh,
                allocate(1, 0, 0, 0),
                root(1, 1, 0),
                sticking(root(2, 1, 0)),
                look(0, 1, 3),
                root(0, 0, 0),
                root(1, 0, 0),
                root(2, 0, 0),
                look(0, 1, 3),
                collect(1),
                nothing_at(0),
                Maps(0, 255),
            ],
        ),
        case(
            "P5",
            2,
            vec![
                // "P5. One object in roots 0 and 1: clearing one leaves count 1, clearing the other frees it."
                fresh,
                allocate(1, 0, 0, 0),
                root(1, 1, 0),
                look(0, 1, 2),
                root(0, 0, 0),
                look(0, 1, 1),
                root(1, 0, 1),
                nothing_at(0),
                Maps(0, 255),
            ],
        ),
        case(
            "P6",
            1,
            vec![
                // "P6. w = 1: allocate 1, clear its root; the value is 0 and the object stays; collect
                // gives 1." U5: "a birth at width 1 included".
                fresh,
                sticking(allocate(1, 0, 0, 0)),
                root(0, 0, 0),
                look(0, 1, 1),
                collect(1),
                Maps(0, 255),
            ],
        ),
        case(
            "P7",
            2,
            vec![
                // "P7. Two objects naming each other, all roots cleared: each keeps count 1; collect frees
                // both."
                fresh,
                allocate(1, 0, 0, 0),
                allocate(1, 1, 0, 1),
                cell(0, 0, 2, 0),
                cell(1, 0, 1, 0),
                root(0, 0, 0),
                root(1, 0, 0),
                look(0, 1, 1),
                look(1, 1, 1),
                collect(2),
                Maps(0, 255),
            ],
        ),
        case(
            "P8",
            2,
            vec![
                // "P8. Root 0 names X of 2 blocks, whose cell 7 names Y of 1, with no other references:
                // clearing root 0 gives 3. Cell 8 of X would have been refused 7."
                fresh,
                allocate(2, 0, 0, 0),
                allocate(1, 1, 0, 2),
                cell(0, 8, 3, 7),
                cell(0, 7, 3, 0),
                root(1, 0, 0),
                look(0, 2, 1),
                look(2, 1, 1),
                root(0, 0, 3),
                Maps(0, 255),
            ],
        ),
        case(
            "P9",
            2,
            vec![
                // "P9. Count 1, the object stored again in the root that holds it: count 1. With count 2 it
                // ends at 3, stuck." Document 02, U2: "so P9's second half ends at 2."
                fresh,
                allocate(1, 0, 0, 0),
                root(0, 1, 0),
                look(0, 1, 1),
                root(1, 1, 0),
                look(0, 1, 2),
                root(1, 1, 0),
                look(0, 1, 2),
                root(0, 0, 0),
                look(0, 1, 1),
                root(1, 0, 1),
                nothing_at(0),
                Maps(0, 255),
            ],
        ),
        case(
            "P10",
            2,
            vec![
                // "P10. Allocate 8 on a fresh heap: block 0. Allocate 0 or 9: refused 3, even with a bad
                // root."
                fresh,
                allocate(0, 0, 3, 0),
                allocate(9, 0, 3, 0),
                allocate(0, 4, 3, 0),
                allocate(9, 4, 3, 0),
                allocate(8, 0, 0, 0),
                allocate(0, 4, 3, 0),
                allocate(9, 4, 3, 0),
            ],
        ),
        case(
            "P11",
            2,
            vec![
                // "P11. Otherwise fresh: A = 0, B = 254 is damage 1; A = 1, B = 255 is 2; A = 6, B = 251
                // is 3."
                fresh,
                Given(0, 254),
                Gives(Call::Check, 2, 1, 0),
                Given(1, 255),
                Gives(Call::Check, 2, 2, 0),
                Given(6, 251),
                Gives(Call::Check, 2, 3, 0),
                Given(0, 255),
                Gives(Call::Check, 0, 0, 0),
            ],
        ),
    ]
}
