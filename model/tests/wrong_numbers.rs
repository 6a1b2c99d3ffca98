//! Wrong readings of document 02, U6, each as a heap that makes one call from the model's heap: each gives something else
//! than the model does, for calls of the lists of U6 in the large file and of the random families.

mod common;
use common::{each_call, say};
use model::lists::families::FAMILIES;
use model::lists::file::{Bench, Entry};
use model::lists::generate::Desk;
use model::lists::number_vectors::numbers;
use model::lists::random::Random;
use model::rules::calls::{apply_undamaged, is_chosen};
use model::rules::chunks::{least_power_of_two, lowest_free_chunk};
use model::rules::damage::damage;
use model::rules::heap::*;
use model::rules::marks;
use model::rules::sections::{figures, leave_list_true};
use model::{apply, Call, Memory, Reply};
use std::collections::BTreeSet;

#[derive(Clone, Copy, Debug, PartialEq)]
enum Wrong {
    Nothing,
    /// Kinds 4 and 5 walk over the blocks with a flag, which a free block leaves as it is.
    FlagKeptOverFreeBlocks,
    /// The same, with a flag that a first block leaves as it is.
    FlagKeptAtFirstBlocks,
    /// The D bit is read at every block.
    EveryBlockHasItsBit,
    /// Kind 4 tests numbers.
    NumbersChecked,
    /// Kind 5 counts numbers.
    NumbersTallied,
    /// A number is written only where it could be a reference.
    NumbersWrittenAsReferences,
    /// A number write counts what the number looks like.
    NumbersCountedUp,
    /// A collection goes where numbers seem to lead.
    NumbersFollowed,
    /// A collection counts numbers of reached data.
    NumbersRecounted,
    /// Freed data lets go of what its numbers look like.
    NumbersLetGo,
    DBitLeftByTheRelease,
    DBitLeftByTheSweep,
    CellsLeftByTheRelease,
    CellsLeftByTheSweep,
    DBitLeftByFormat,
    /// An allocation of data sets no D bit, or one for each block.
    NoDBit,
    DBitOnEveryBlock,
    /// An ordinary allocation makes data, too.
    AllIsData,
    TwelveBeforeSeven,
    TwelveBeforeSix,
    TwelveAfterEight,
    NoTwelveForReferences,
    NoTwelveForNumbers,
    TwelveForDataInRoots,
    KindSevenBeforeFive,
    KindSevenAfterEleven,
    NoKindSeven,
    KindSevenOnFreeBlocksAlone,
    KindSevenInObjectsAlone,
    KindSevenInTheFirstByteAlone,
    NumberWriteClearsTheWaitingList,
    /// As a store of the value present does.
    PresentNumberClearsTheWaitingList,
    AllocationOfDataKeepsTheWaitingList,
    /// The length of the D-map isn't tested.
    AnyLength,
    NoBirthOfData,
}

const WRONG: [Wrong; 35] = [
    Wrong::FlagKeptOverFreeBlocks,
    Wrong::FlagKeptAtFirstBlocks,
    Wrong::EveryBlockHasItsBit,
    Wrong::NumbersChecked,
    Wrong::NumbersTallied,
    Wrong::NumbersWrittenAsReferences,
    Wrong::NumbersCountedUp,
    Wrong::NumbersFollowed,
    Wrong::NumbersRecounted,
    Wrong::NumbersLetGo,
    Wrong::DBitLeftByTheRelease,
    Wrong::DBitLeftByTheSweep,
    Wrong::CellsLeftByTheRelease,
    Wrong::CellsLeftByTheSweep,
    Wrong::DBitLeftByFormat,
    Wrong::NoDBit,
    Wrong::DBitOnEveryBlock,
    Wrong::AllIsData,
    Wrong::TwelveBeforeSeven,
    Wrong::TwelveBeforeSix,
    Wrong::TwelveAfterEight,
    Wrong::NoTwelveForReferences,
    Wrong::NoTwelveForNumbers,
    Wrong::TwelveForDataInRoots,
    Wrong::KindSevenBeforeFive,
    Wrong::KindSevenAfterEleven,
    Wrong::NoKindSeven,
    Wrong::KindSevenOnFreeBlocksAlone,
    Wrong::KindSevenInObjectsAlone,
    Wrong::KindSevenInTheFirstByteAlone,
    Wrong::NumberWriteClearsTheWaitingList,
    Wrong::PresentNumberClearsTheWaitingList,
    Wrong::AllocationOfDataKeepsTheWaitingList,
    Wrong::AnyLength,
    Wrong::NoBirthOfData,
];

fn reply(number: usize, value: usize, second: usize) -> Reply {
    Reply {
        number,
        value,
        second,
    }
}

fn refused(number: usize) -> Reply {
    reply(number, 0, 0)
}

/// A heap with one thing wrong.
struct Heap<'a> {
    wrong: Wrong,
    blocks: usize,
    width: usize,
    memory: &'a mut Memory,
}

impl Heap<'_> {
    fn is(&self, wrong: Wrong) -> bool {
        self.wrong == wrong
    }

    /// The first block that a number names, if it names one.
    fn named(&self, v: Ref) -> Option<usize> {
        named(self.blocks, self.memory, v)
    }

    fn d_bit(&self, i: usize) -> bool {
        bit(&self.memory.data, i) == 1
    }

    /// For each block, whether its cells are passed over in kinds 4 and 5.
    fn blocks_of_data(&self) -> Vec<bool> {
        let mut flag = false;
        let mut passed_over = Vec::new();
        for i in 0..self.blocks {
            let is_first = is_first_block(self.blocks, self.memory, i);
            if self.is(Wrong::EveryBlockHasItsBit) {
                flag = self.d_bit(i);
            } else if is_first {
                let kept = flag && self.is(Wrong::FlagKeptAtFirstBlocks);
                flag = kept || self.d_bit(i);
            } else if !is_allocated(self.memory, i) && !self.is(Wrong::FlagKeptOverFreeBlocks) {
                flag = false;
            }
            passed_over.push(flag);
        }
        passed_over
    }

    fn kind_4(&self) -> bool {
        let passed_over = self.blocks_of_data();
        let bad_cell = self.memory.cells.iter().enumerate().any(|(place, v)| {
            let block = place / 4;
            let looked_at = !passed_over[block] || self.is(Wrong::NumbersChecked);
            let is_bad = !is_allocated(self.memory, block) || self.named(*v).is_none();
            looked_at && *v != 0 && is_bad
        });
        let mut roots = self.memory.roots.iter();
        bad_cell || roots.any(|v| *v != 0 && self.named(*v).is_none())
    }

    fn kind_5(&self) -> bool {
        let passed_over = self.blocks_of_data();
        let mut numbers = vec![0; self.blocks];
        let cells = self.memory.cells.iter().enumerate();
        let cells =
            cells.filter(|(place, _)| !passed_over[place / 4] || self.is(Wrong::NumbersTallied));
        for v in self.memory.roots.iter().chain(cells.map(|(_, v)| v)) {
            if let Some(first) = self.named(*v) {
                numbers[first] += 1;
            }
        }
        (0..self.blocks).any(|i| {
            let count = count(self.blocks, self.width, self.memory, i);
            let top = capacity(self.width);
            match is_first_block(self.blocks, self.memory, i) {
                true => count == 0 || (count < top && count != numbers[i]),
                false => count != 0,
            }
        })
    }

    fn kind_7(&self) -> bool {
        let looked_at = |i: &usize| match self.wrong {
            Wrong::NoKindSeven => false,
            Wrong::KindSevenOnFreeBlocksAlone => !is_allocated(self.memory, *i),
            Wrong::KindSevenInObjectsAlone => is_allocated(self.memory, *i),
            Wrong::KindSevenInTheFirstByteAlone => *i < 8,
            _ => true,
        };
        let mut places = (0..self.blocks).filter(looked_at);
        places.any(|i| self.d_bit(i) && !is_first_block(self.blocks, self.memory, i))
    }

    /// The number that comes before the call's own, if one does.
    fn first(&self, call: Call) -> Option<Reply> {
        let (blocks, width) = (self.blocks, self.width);
        let mut of_right_length = self.memory.clone();
        if self.is(Wrong::AnyLength) {
            of_right_length.data.resize(blocks / 8, 0);
        }
        if misshapen(blocks, width, &of_right_length) {
            return Some(refused(1));
        }
        if call == Call::Format {
            return None;
        }
        // Kinds 1 to 3 ask for the A-map and the B-map alone.
        let mut maps = Memory::zeros(blocks, width, 1);
        maps.a.clone_from(&self.memory.a);
        maps.b.clone_from(&self.memory.b);
        let of_maps = damage(blocks, width, &maps);
        let mut found = match of_maps {
            1..=3 => vec![(true, 2, of_maps)],
            _ => vec![
                (self.kind_4(), 2, 4),
                (self.kind_5(), 2, 5),
                (self.kind_7(), 2, 7),
            ],
        };
        found.push((self.memory.sections != figures(blocks, self.memory), 11, 0));
        match self.wrong {
            Wrong::KindSevenBeforeFive if found.len() == 4 => found.swap(1, 2),
            Wrong::KindSevenAfterEleven if found.len() == 4 => found.swap(2, 3),
            _ => {}
        }
        let (_, number, value) = found.into_iter().find(|(applies, ..)| *applies)?;
        Some(reply(number, value, 0))
    }

    fn free(&self) -> usize {
        free_count(self.blocks, self.memory)
    }

    /// The number for a cell that can't be written or read: in order, with what is wrong about the order.
    fn no_cell(&self, a: usize, j: usize, v: Option<usize>) -> Option<usize> {
        let is_first = is_first_block(self.blocks, self.memory, a);
        let past = is_first && j >= 4 * size(self.blocks, self.memory, a);
        let wants_data = v.is_none();
        let has_bit = a < self.blocks && self.d_bit(a);
        let mut other_kind = has_bit != wants_data;
        if self.is(Wrong::NoTwelveForReferences) && !wants_data {
            other_kind = false;
        }
        if self.is(Wrong::NoTwelveForNumbers) && wants_data {
            other_kind = false;
        }
        let bad_value =
            v.is_some_and(|v| v != 0 && !is_first_block(self.blocks, self.memory, v - 1));
        let six = (!is_first, 6);
        let (seven, eight) = ((past, 7), (bad_value, 8));
        let twelve = (other_kind, 12);
        let order = match self.wrong {
            Wrong::TwelveBeforeSeven => [six, twelve, seven, eight],
            Wrong::TwelveBeforeSix => [twelve, six, seven, eight],
            Wrong::TwelveAfterEight => [six, seven, eight, twelve],
            _ => [six, seven, twelve, eight],
        };
        let found = order.into_iter().find(|(applies, _)| *applies);
        found.map(|(_, number)| number)
    }

    fn count_up(&mut self, v: usize) -> bool {
        let Some(first) = Ref::try_from(v).ok().and_then(|v| self.named(v)) else {
            return false;
        };
        let (blocks, width) = (self.blocks, self.width);
        let now = count(blocks, width, self.memory, first);
        if now < capacity(width) {
            set_count(blocks, width, self.memory, first, now + 1);
        }
        now + 1 == capacity(width)
    }

    fn let_go(&mut self, v: Ref) {
        let (blocks, width) = (self.blocks, self.width);
        let Some(first) = self.named(v) else {
            return;
        };
        let now = count(blocks, width, self.memory, first);
        if now == capacity(width) || now == 0 {
            return;
        }
        set_count(blocks, width, self.memory, first, now - 1);
        if now > 1 {
            return;
        }
        let places = cell_places(blocks, self.memory, first);
        let lets_go = !self.d_bit(first) || self.is(Wrong::NumbersLetGo);
        let cells = self.memory.cells[places].to_vec();
        let d_left = self.is(Wrong::DBitLeftByTheRelease);
        let cells_left = self.is(Wrong::CellsLeftByTheRelease);
        self.erase(first, d_left, cells_left);
        for v in cells.into_iter().filter(|_| lets_go) {
            self.let_go(v);
        }
    }

    fn erase(&mut self, first: usize, d_left: bool, cells_left: bool) {
        let places = cell_places(self.blocks, self.memory, first);
        for block in places.start / 4..places.end / 4 {
            set_bit(&mut self.memory.a, block, 0);
            set_bit(&mut self.memory.b, block, 1);
        }
        set_count(self.blocks, self.width, self.memory, first, 0);
        if !(cells_left && self.d_bit(first)) {
            self.memory.cells[places].fill(0);
        }
        if !d_left {
            set_bit(&mut self.memory.data, first, 0);
        }
    }

    fn collect(&mut self) {
        let (blocks, width) = (self.blocks, self.width);
        let cells_of = |heap: &Self, first: usize, numbers_too: bool| {
            let places = cell_places(blocks, heap.memory, first);
            match heap.d_bit(first) && !numbers_too {
                true => Vec::new(),
                false => heap.memory.cells[places].to_vec(),
            }
        };
        let follows = self.is(Wrong::NumbersFollowed);
        let mut reached = BTreeSet::new();
        let mut to_look_at = self.memory.roots.clone();
        while let Some(v) = to_look_at.pop() {
            if let Some(first) = self.named(v).filter(|first| reached.insert(*first)) {
                to_look_at.extend(cells_of(self, first, follows));
            }
        }
        let mut names = self.memory.roots.clone();
        for owner in &reached {
            names.extend(cells_of(self, *owner, self.is(Wrong::NumbersRecounted)));
        }
        for first in first_blocks(blocks, self.memory) {
            let number = names.iter().filter(|v| **v as usize == 1 + first).count();
            let number = number.min(capacity(width));
            set_count(blocks, width, self.memory, first, number);
            if !reached.contains(&first) {
                let d_left = self.is(Wrong::DBitLeftByTheSweep);
                self.erase(first, d_left, self.is(Wrong::CellsLeftByTheSweep));
            }
        }
    }

    fn allocate(&mut self, n: usize, r: usize, as_data: bool) -> Reply {
        let (blocks, width) = (self.blocks, self.width);
        if n == 0 || n > blocks {
            return refused(3);
        }
        if r >= self.memory.roots.len() {
            return refused(4);
        }
        let Some(first) = lowest_free_chunk(blocks, self.memory, least_power_of_two(n)) else {
            return refused(5);
        };
        for i in first..first + n {
            set_bit(&mut self.memory.a, i, 1);
        }
        set_bit(&mut self.memory.b, first + n - 1, 0);
        set_count(blocks, width, self.memory, first, 1);
        let as_data = as_data && !self.is(Wrong::NoDBit) || self.is(Wrong::AllIsData);
        let marked = if self.is(Wrong::DBitOnEveryBlock) {
            n
        } else {
            1
        };
        for i in first..first + marked {
            set_bit(&mut self.memory.data, i, u8::from(as_data));
        }
        let old = std::mem::replace(&mut self.memory.roots[r], 1 + first as Ref);
        self.let_go(old);
        let born_stuck = width == 1 && !(as_data && self.is(Wrong::NoBirthOfData));
        reply(0, first, usize::from(born_stuck))
    }

    fn store(&mut self, place: usize, in_root: bool, v: usize) -> Reply {
        let list = |memory: &Memory| match in_root {
            true => memory.roots[place],
            false => memory.cells[place],
        };
        let old = list(self.memory);
        if old as usize == v {
            return reply(0, 0, 0);
        }
        let before = self.free();
        let stuck = self.count_up(v);
        match in_root {
            true => self.memory.roots[place] = v as Ref,
            false => self.memory.cells[place] = v as Ref,
        }
        self.let_go(old);
        reply(0, self.free() - before, usize::from(stuck))
    }

    /// The call's own part, on a heap that nothing comes first on.
    fn carry_out(&mut self, call: Call) -> Reply {
        let (blocks, width) = (self.blocks, self.width);
        match call {
            Call::Format => {
                let data = self.memory.data.clone();
                let reply = apply_undamaged(blocks, width, self.memory, call);
                if self.is(Wrong::DBitLeftByFormat) {
                    self.memory.data = data;
                }
                reply
            }
            Call::Allocate { n, r } => self.allocate(n, r, false),
            Call::AllocateData { n, r } => self.allocate(n, r, true),
            Call::StoreRoot { r, v } => {
                if r >= self.memory.roots.len() {
                    return refused(4);
                }
                if v != 0 && !is_first_block(blocks, self.memory, v - 1) {
                    return refused(8);
                }
                if self.is(Wrong::TwelveForDataInRoots) && v != 0 && self.d_bit(v - 1) {
                    return refused(12);
                }
                self.store(r, true, v)
            }
            Call::StoreCell { a, j, v } => match self.no_cell(a, j, Some(v)) {
                Some(number) => refused(number),
                None => self.store(4 * a + j, false, v),
            },
            Call::WriteNumber { a, j, v } => {
                if let Some(number) = self.no_cell(a, j, None) {
                    return refused(number);
                }
                if self.is(Wrong::NumbersWrittenAsReferences) && v != 0 && self.named(v).is_none() {
                    return refused(8);
                }
                if self.is(Wrong::NumbersCountedUp) {
                    self.count_up(v as usize);
                }
                self.memory.cells[4 * a + j] = v;
                reply(0, 0, 0)
            }
            Call::ReadNumber { a, j } => match self.no_cell(a, j, None) {
                Some(number) => refused(number),
                None => reply(0, self.memory.cells[4 * a + j] as usize, 0),
            },
            Call::Collect => {
                let before = self.free();
                self.collect();
                reply(0, self.free() - before, 0)
            }
            Call::ReturnRoots { chosen } => {
                let roots = self.memory.roots.len();
                if (roots..64).any(|r| is_chosen(chosen, r)) {
                    return refused(4);
                }
                let before = self.free();
                for r in (0..roots).filter(|r| is_chosen(chosen, *r)) {
                    let old = std::mem::take(&mut self.memory.roots[r]);
                    self.let_go(old);
                }
                reply(0, self.free() - before, 0)
            }
            Call::Check | Call::Look { .. } | Call::FreeBlocks => {
                apply_undamaged(blocks, width, self.memory, call)
            }
            Call::OpenCollection | Call::StepCollection { .. } => unreachable!("not asked"),
        }
    }

    /// Whether an accepted call leaves the waiting list 0.
    fn clears(&self, before: &Memory, call: Call) -> bool {
        match call {
            Call::WriteNumber { a, j, v } => {
                let present = before.cells[4 * a + j] == v;
                self.is(Wrong::NumberWriteClearsTheWaitingList)
                    || self.is(Wrong::PresentNumberClearsTheWaitingList) && present
            }
            Call::AllocateData { .. } => !self.is(Wrong::AllocationOfDataKeepsTheWaitingList),
            _ => call.clears_waiting_list(),
        }
    }

    fn apply(&mut self, call: Call) -> Reply {
        if let Some(reply) = self.first(call) {
            return reply;
        }
        // Kinds that this heap doesn't see: what it makes of them is not asked.
        let is_sound = damage(self.blocks, self.width, self.memory) == 0;
        if call != Call::Format && !is_sound {
            return reply(0, 0, 0);
        }
        let before = self.memory.clone();
        let reply = self.carry_out(call);
        if reply.number == 0 {
            if self.clears(&before, call) {
                self.memory.waiting.fill(0);
            }
            leave_list_true(self.blocks, self.memory);
        }
        reply
    }
}

/// Whether a call is of request U8, or writes while a collection is open, or is refused 13: these heaps know nothing of it, and aren't
/// asked.
fn is_of_steps(bench: &Bench, call: Call) -> bool {
    let (blocks, memory) = (bench.blocks, &bench.memory);
    let is_clear =
        memory.marks.iter().all(|byte| *byte == 0) && memory.list.iter().all(|v| *v == 0);
    let knows = || call.only_reads() && !misshapen(blocks, bench.width, memory);
    matches!(call, Call::OpenCollection | Call::StepCollection { .. })
        || !is_clear && (!knows() || marks::is_wrong(blocks, memory))
}

/// Whether a heap gives something else than the model for a call.
fn differs(wrong: Wrong, bench: &Bench, call: Call) -> bool {
    let (blocks, width) = (bench.blocks, bench.width);
    let mut right = bench.memory.clone();
    let due = apply(blocks, width, &mut right, call);
    let mut memory = bench.memory.clone();
    // A D-map of another length can't be read: such a heap only answers.
    if misshapen(blocks, width, &memory) {
        let heap = Heap {
            wrong,
            blocks,
            width,
            memory: &mut memory,
        };
        let lets_pass = wrong == Wrong::AnyLength && heap.first(Call::Format).is_none();
        return lets_pass;
    }
    let mut heap = Heap {
        wrong,
        blocks,
        width,
        memory: &mut memory,
    };
    let reply = heap.apply(call);
    (reply, &memory) != (due, &right)
}

/// Every call of the lists of U6 in the large file, with the heap before it.
fn each_of_the_lists(mut show: impl FnMut(&Bench, Call)) {
    let mut desk = Desk::new(Random::new(0), [8, 2, 4]);
    numbers(&mut desk);
    let mut bench = Bench::of_any_size(desk.header);
    for words in desk.entries {
        let entry = Entry::from_words(words);
        if let Entry::Call(call) = entry {
            // Large heaps show nothing more, and take long.
            if bench.blocks <= 32 {
                show(&bench, call);
            }
        }
        bench.carry_out(entry, apply);
    }
}

/// How many calls end otherwise, by what is wrong; and of how many.
fn told_apart(each: impl FnOnce(&mut dyn FnMut(&Bench, Call))) -> ([usize; WRONG.len()], usize) {
    let mut told = [0; WRONG.len()];
    let mut calls = 0;
    each(&mut |bench, call| {
        if is_of_steps(bench, call) {
            return;
        }
        calls += 1;
        assert!(!differs(Wrong::Nothing, bench, call), "{call:?} {bench:?}");
        for (k, wrong) in WRONG.into_iter().enumerate() {
            told[k] += usize::from(differs(wrong, bench, call));
        }
    });
    (told, calls)
}

#[test]
fn the_lists_tell_wrong_readings_apart() {
    let (told, calls) = told_apart(|show| each_of_the_lists(show));
    for (wrong, told) in WRONG.into_iter().zip(told) {
        assert!(told > 0, "{wrong:?} is never told apart");
        say(&format!(
            "wrong reading of data, {wrong:?}: {told} of {calls} calls of the lists end otherwise"
        ));
    }
}

#[test]
fn random_lists_tell_wrong_readings_apart() {
    let (told, calls) = told_apart(|show| {
        for (family, _) in FAMILIES {
            for seed in 0..56 {
                each_call(family, seed, 120, |bench, call| {
                    if bench.blocks <= 64 {
                        show(bench, call);
                    }
                });
            }
        }
    });
    for (wrong, told) in WRONG.into_iter().zip(told) {
        assert!(told > 0, "{wrong:?} is never told apart");
        say(&format!(
            "wrong reading of data, {wrong:?}: {told} of {calls} calls at random end otherwise"
        ));
    }
}
