//! Wrong readings of document 02, U8, each as a heap that makes one call from the model's heap: each gives something else than the
//! model does, for calls of the lists of U8 in the large file and of the random families. What isn't of U8 is the model's, on the same
//! heap with none open; marks, list and close are written once more, by sets.

mod common;
use common::{each_call, say};
use model::lists::families::FAMILIES;
use model::lists::file::{Bench, Entry};
use model::lists::generate::Desk;
use model::lists::random::Random;
use model::lists::step_vectors::steps as step_vectors;
use model::rules::answers::refused_first;
use model::rules::claims::written_in;
use model::rules::counting::erase;
use model::rules::heap::*;
use model::rules::mark_claims::{standing, touched, Firsts};
use model::rules::sections::leave_list_true;
use model::{apply, Call, Memory, Reply};

/// Declares the readings, and lists all but the right one.
macro_rules! readings {
    ($($(#[$about:meta])* $name:ident,)*) => {
        #[derive(Clone, Copy, Debug, PartialEq)]
        enum Wrong {
            Nothing,
            $($(#[$about])* $name,)*
        }

        const WRONG: &[Wrong] = &[$(Wrong::$name,)*];
    };
}

readings! {
    OpeningMarksAllThatIsReached,
    OpeningListsNothing,
    /// The list is in the order of the roots.
    OpeningListsAsRootsStand,
    OpeningClearsTheWaitingList,
    OpensNone,
    HighestIsTaken,
    DataIsNoStep,
    NumbersAreFollowed,
    MetAgainIsListedAgain,
    MetIsNotListed,
    MetIsNotMarked,
    OneStepMore,
    OneStepLess,
    /// The value is the budget, or one more than was taken.
    ValueIsTheBudget,
    BudgetOfNoneCloses,
    /// A call that finds the list empty doesn't close, or one whose last step empties it.
    EmptyListStaysOpen,
    LastStepDoesNotClose,
    StepKeepsTheWaitingList,
    StepOfNoneKeepsTheWaitingList,
    NothingIsFreedAtTheClose,
    FreedIsNotTold,
    /// The second value has only what was unmarked.
    FreedSurvivorsAreNotTold,
    SurvivorsAreNotCountedDown,
    SurvivorsAreCountedDownOnceForEachObject,
    SurvivorsAreCountedAnew,
    StuckSurvivorsAreCountedDown,
    SurvivorsAtZeroStay,
    MarksAreLeftAtTheClose,
    LastPlaceIsLeftAtTheClose,
    BornUnmarked,
    BornListed,
    DataIsBornUnmarked,
    OwnerIsNotMarked,
    OldIsNotMarked,
    NewIsNotMarked,
    StoresMarkAndDontList,
    ValuePresentMarks,
    RootStoresMarkNothing,
    CellsOfFreedMarkNothing,
    /// Only those of an object that was marked do.
    CellsOfUnmarkedFreedMarkNothing,
    CellsOfFreedMarkAndDontList,
    ReturnsMarkNothing,
    FreedObjectsStayInTheMap,
    FreedObjectsStayOnTheList,
    FormatLeavesTheMarks,
    FormatLeavesTheList,
    FormatTestsTheMarks,
    EqualNumbersPass,
    FallingNumbersPass,
    NumbersBehindZerosPass,
    AnyLastPlaceIsOpen,
    UnmarkedObjectsOnTheListPass,
    MarksOnFreeBlocksPass,
    MarksInsideObjectsPass,
    RootsOfUnmarkedObjectsPass,
    CellsOfUnmarkedObjectsPass,
    /// A listed object may not name an unmarked one either.
    ListedObjectsAreTested,
    NumbersAreTestedAsNames,
    MarksPassWhileNoneIsOpen,
    /// A list place alone tells nothing: its object is unmarked, or its mark is left.
    NothingIsTestedWhileNoneIsOpen,
    ThirteenBeforeEleven,
    ThirteenAfterItsOwn,
    ThirteenNotInReadingCalls,
    FourteenBeforeThirteen,
    StepsWithNoneOpenPass,
    OpeningsWithOneOpenPass,
    CollectionsWithOneOpenPass,
    AnyLengthOfTheMap,
    AnyLengthOfTheList,
}

fn reply(number: usize, value: usize, second: usize) -> Reply {
    Reply {
        number,
        value,
        second,
    }
}

fn refused(number: usize) -> Reply {
    reply(number, 0, 0)
}

/// A heap with one thing wrong.
struct Heap<'a> {
    wrong: Wrong,
    blocks: usize,
    width: usize,
    memory: &'a mut Memory,
}

impl Heap<'_> {
    fn is(&self, wrong: Wrong) -> bool {
        self.wrong == wrong
    }

    fn is_open(&self) -> bool {
        match self.memory.list[self.blocks] {
            0 => false,
            1 => true,
            _ => self.is(Wrong::AnyLastPlaceIsOpen),
        }
    }

    fn marked(&self) -> Firsts {
        let bits = (0..self.blocks).filter(|i| bit(&self.memory.marks, *i) == 1);
        bits.collect()
    }

    fn listed(&self) -> Vec<usize> {
        let places = self.memory.list[..self.blocks].iter();
        let held = places.take_while(|v| **v != 0);
        held.map(|v| *v as usize - 1).collect()
    }

    /// Writes the map, the list in this order, and its last place.
    fn write(&mut self, marked: &Firsts, listed: &[usize], last: Ref) {
        self.memory.marks.fill(0);
        for first in marked {
            set_bit(&mut self.memory.marks, *first, 1);
        }
        self.memory.list.fill(0);
        for (place, first) in self.memory.list.iter_mut().zip(listed) {
            *place = (1 + first) as Ref;
        }
        self.memory.list[self.blocks] = last;
    }

    /// What an object names.
    fn names(&self, first: usize, numbers_too: bool) -> Vec<usize> {
        if is_data(self.memory, first) && !numbers_too {
            return Vec::new();
        }
        let cells = &self.memory.cells[cell_places(self.blocks, self.memory, first)];
        cells.iter().filter_map(|v| self.named(*v)).collect()
    }

    fn named(&self, v: Ref) -> Option<usize> {
        named(self.blocks, self.memory, v)
    }

    /// The same heap with none open.
    fn plain(&self) -> Memory {
        let mut plain = self.memory.clone();
        plain.marks = vec![0; self.blocks / 8];
        plain.list = vec![0; self.blocks + 1];
        plain
    }

    /// Whether 13 is said.
    fn is_ill(&self) -> bool {
        let (blocks, memory) = (self.blocks, &*self.memory);
        let listed = self.listed();
        let rest = &memory.list[listed.len()..blocks];
        let is_first = |first: &usize| is_first_block(blocks, memory, *first);
        let not_rising = listed.windows(2).any(|two| match self.wrong {
            Wrong::EqualNumbersPass => two[0] > two[1],
            Wrong::FallingNumbersPass => two[0] == two[1],
            _ => two[0] >= two[1],
        });
        let behind = rest.iter().any(|v| *v != 0) && !self.is(Wrong::NumbersBehindZerosPass);
        // Alone it tells nothing: such a one is unmarked, or a mark isn't on a first block.
        let no_first = !listed.iter().all(is_first);
        let last = memory.list[blocks] > 1 && !self.is(Wrong::AnyLastPlaceIsOpen);
        let marked = self.marked();
        let unmarked = listed.iter().any(|first| !marked.contains(first));
        let unmarked = unmarked && !self.is(Wrong::UnmarkedObjectsOnTheListPass);
        let stray = marked.iter().any(|i| {
            let passes = match is_allocated(memory, *i) {
                true => Wrong::MarksInsideObjectsPass,
                false => Wrong::MarksOnFreeBlocksPass,
            };
            !is_first(i) && !self.is(passes)
        });
        if not_rising || behind || no_first || last || unmarked || stray {
            return true;
        }
        if !self.is_open() {
            let marks = !marked.is_empty() && !self.is(Wrong::MarksPassWhileNoneIsOpen);
            let list = memory.list.iter().any(|v| *v != 0);
            return (marks || list) && !self.is(Wrong::NothingIsTestedWhileNoneIsOpen);
        }
        let roots = memory.roots.iter().filter_map(|v| self.named(*v));
        let by_root = roots.into_iter().any(|first| !marked.contains(&first));
        let by_cell = marked.iter().filter(|first| is_first(first)).any(|first| {
            let tested = !listed.contains(first) || self.is(Wrong::ListedObjectsAreTested);
            let names = self.names(*first, self.is(Wrong::NumbersAreTestedAsNames));
            tested && names.iter().any(|object| !marked.contains(object))
        });
        by_root && !self.is(Wrong::RootsOfUnmarkedObjectsPass)
            || by_cell && !self.is(Wrong::CellsOfUnmarkedObjectsPass)
    }

    /// Whether 14 is said.
    fn is_out_of_turn(&self, call: Call) -> bool {
        match call {
            Call::StepCollection { .. } => {
                !self.is_open() && !self.is(Wrong::StepsWithNoneOpenPass)
            }
            Call::OpenCollection => self.is_open() && !self.is(Wrong::OpeningsWithOneOpenPass),
            Call::Collect => self.is_open() && !self.is(Wrong::CollectionsWithOneOpenPass),
            _ => false,
        }
    }

    /// The number that comes before the call's own and 14, if one does.
    fn first(&self, call: Call) -> Option<Reply> {
        let (blocks, width) = (self.blocks, self.width);
        let plain = self.plain();
        let before = refused_first(blocks, width, &plain, call);
        let is_ill = || self.is_ill().then(|| refused(13));
        if call == Call::Format {
            return before.or_else(|| is_ill().filter(|_| self.is(Wrong::FormatTestsTheMarks)));
        }
        // The marks of a damaged heap are not asked for.
        match (self.wrong, before) {
            (Wrong::ThirteenBeforeEleven, Some(Reply { number: 11, .. })) => is_ill().or(before),
            (Wrong::ThirteenNotInReadingCalls, None) if call.only_reads() => None,
            (Wrong::ThirteenAfterItsOwn, None) => {
                let own = apply(blocks, width, &mut plain.clone(), call);
                let own = (own.number != 0 && own.number != 14).then_some(own);
                is_ill().map(|thirteen| own.unwrap_or(thirteen))
            }
            (Wrong::FourteenBeforeThirteen, None) if self.is_out_of_turn(call) => Some(refused(14)),
            _ => before.or_else(is_ill),
        }
    }

    fn open(&mut self) -> Reply {
        let roots = self.memory.roots.clone();
        let mut listed: Vec<usize> = Vec::new();
        for first in roots.into_iter().filter_map(|v| self.named(v)) {
            if !listed.contains(&first) {
                listed.push(first);
            }
        }
        let mut marked: Firsts = listed.iter().copied().collect();
        if self.is(Wrong::OpeningMarksAllThatIsReached) {
            let mut to_look_at = listed.clone();
            while let Some(first) = to_look_at.pop() {
                let names = self.names(first, false);
                to_look_at.extend(names.into_iter().filter(|object| marked.insert(*object)));
            }
        }
        if !self.is(Wrong::OpeningListsAsRootsStand) {
            listed.sort();
        }
        if self.is(Wrong::OpeningListsNothing) {
            listed.clear();
        }
        if self.is(Wrong::OpeningClearsTheWaitingList) {
            self.memory.waiting.fill(0);
        }
        let last = Ref::from(!self.is(Wrong::OpensNone));
        self.write(&marked, &listed, last);
        reply(0, 0, 0)
    }

    fn step(&mut self, budget: usize) -> Reply {
        let (mut marked, mut listed) = (self.marked(), self.listed());
        let found_empty = listed.is_empty();
        let most = match self.wrong {
            Wrong::OneStepMore if budget > 0 => budget.saturating_add(1),
            Wrong::OneStepLess => budget.saturating_sub(1),
            _ => budget,
        };
        let (mut taken, mut steps) = (0, 0);
        while steps < most && !listed.is_empty() && taken <= 4 * self.blocks {
            let highest = self.is(Wrong::HighestIsTaken);
            let place = if highest { listed.len() - 1 } else { 0 };
            let first = listed.remove(place);
            taken += 1;
            let counts = !is_data(self.memory, first) || !self.is(Wrong::DataIsNoStep);
            steps += usize::from(counts);
            for object in self.names(first, self.is(Wrong::NumbersAreFollowed)) {
                let is_new = !marked.contains(&object);
                if is_new && !self.is(Wrong::MetIsNotMarked) {
                    marked.insert(object);
                }
                let again = self.is(Wrong::MetAgainIsListedAgain) && !listed.contains(&object);
                if is_new && !self.is(Wrong::MetIsNotListed) || again {
                    listed.push(object);
                }
            }
            listed.sort();
            listed.dedup();
        }
        let last_of_all = taken == budget && !found_empty;
        let closes = listed.is_empty()
            && match self.wrong {
                Wrong::BudgetOfNoneCloses => true,
                Wrong::EmptyListStaysOpen => budget > 0 && !found_empty,
                Wrong::LastStepDoesNotClose => budget > 0 && !last_of_all,
                _ => budget > 0,
            };
        let keeps = self.is(Wrong::StepKeepsTheWaitingList)
            || self.is(Wrong::StepOfNoneKeepsTheWaitingList) && budget == 0;
        if !keeps {
            self.memory.waiting.fill(0);
        }
        let value = match self.wrong {
            Wrong::ValueIsTheBudget => budget,
            _ => steps,
        };
        self.write(&marked, &listed, 1);
        let mut freed = 0;
        if closes {
            freed = self.close(&marked);
        }
        reply(0, value, freed)
    }

    fn free(&self) -> usize {
        free_count(self.blocks, self.memory)
    }

    /// The number of blocks freed, as it is told.
    fn close(&mut self, marked: &Firsts) -> usize {
        let (blocks, width) = (self.blocks, self.width);
        let before = self.free();
        let all = standing(blocks, self.memory);
        let unmarked: Vec<usize> = all.difference(marked).copied().collect();
        let mut lost: Vec<usize> = Vec::new();
        for first in &unmarked {
            let mut names = self.names(*first, false);
            if self.is(Wrong::SurvivorsAreCountedDownOnceForEachObject) {
                names.sort();
                names.dedup();
            }
            lost.extend(names.into_iter().filter(|object| marked.contains(object)));
        }
        self.write(&Firsts::new(), &[], 0);
        if !self.is(Wrong::NothingIsFreedAtTheClose) {
            for first in unmarked {
                erase(blocks, width, self.memory, first);
            }
            if !self.is(Wrong::SurvivorsAreNotCountedDown) {
                let told = self.free() - before;
                for object in lost {
                    self.count_down(object);
                }
                if self.is(Wrong::SurvivorsAreCountedAnew) {
                    apply(blocks, width, self.memory, Call::Collect);
                }
                if self.is(Wrong::FreedSurvivorsAreNotTold) {
                    leave_list_true(blocks, self.memory);
                    return told;
                }
            }
        }
        if self.is(Wrong::MarksAreLeftAtTheClose) {
            let stand = standing(blocks, self.memory);
            let left = marked.intersection(&stand).copied().collect();
            self.write(&left, &[], 0);
        }
        if self.is(Wrong::LastPlaceIsLeftAtTheClose) {
            self.memory.list[blocks] = 1;
        }
        leave_list_true(blocks, self.memory);
        match self.wrong {
            Wrong::FreedIsNotTold => 0,
            _ => self.free() - before,
        }
    }

    /// "one that reaches 0 is freed as in a store"
    fn count_down(&mut self, first: usize) {
        let (blocks, width) = (self.blocks, self.width);
        let now = count(blocks, width, self.memory, first);
        let is_stuck = now == capacity(width) && !self.is(Wrong::StuckSurvivorsAreCountedDown);
        if is_stuck || now == 0 {
            return;
        }
        set_count(blocks, width, self.memory, first, now - 1);
        if now == 1 && !self.is(Wrong::SurvivorsAtZeroStay) {
            let names = self.names(first, false);
            erase(blocks, width, self.memory, first);
            for object in names {
                if is_first_block(blocks, self.memory, object) {
                    self.count_down(object);
                }
            }
        }
    }

    /// The marks and the list that a store, an allocation or a return leaves while one is open. The memory is that after the call
    /// already, but for these.
    fn mark(&mut self, before: &Memory, call: Call, reply: Reply) {
        let blocks = self.blocks;
        let (was_marked, was_listed) = (self.marked(), self.listed());
        let stand = standing(blocks, self.memory);
        let written = written_in(before, call, reply);
        let met = self.met(before, call, &written);
        let gone: Vec<usize> = standing(blocks, before)
            .difference(&stand)
            .copied()
            .collect();
        let mut by_freed = Firsts::new();
        for first in &gone {
            let marks = match self.wrong {
                Wrong::CellsOfFreedMarkNothing => false,
                Wrong::CellsOfUnmarkedFreedMarkNothing => was_marked.contains(first),
                Wrong::ReturnsMarkNothing => !matches!(call, Call::ReturnRoots { .. }),
                _ => true,
            };
            if marks && !is_data(before, *first) {
                let places = cell_places(blocks, before, *first);
                let cells = written.cells[places].iter();
                by_freed.extend(cells.filter_map(|v| named(blocks, before, *v)));
            }
        }
        let mut marked = was_marked.clone();
        let mut listed: Firsts = was_listed.into_iter().collect();
        let lists = [
            !self.is(Wrong::StoresMarkAndDontList),
            !self.is(Wrong::CellsOfFreedMarkAndDontList),
        ];
        for (objects, lists) in [met, by_freed].into_iter().zip(lists) {
            for first in objects {
                if marked.insert(first) && lists {
                    listed.insert(first);
                }
            }
        }
        if !self.is(Wrong::FreedObjectsStayInTheMap) {
            marked.retain(|first| stand.contains(first));
        }
        if !self.is(Wrong::FreedObjectsStayOnTheList) {
            listed.retain(|first| stand.contains(first));
        }
        if call.allocates().is_some() {
            let as_data = matches!(call, Call::AllocateData { .. });
            let unmarked =
                self.is(Wrong::BornUnmarked) || self.is(Wrong::DataIsBornUnmarked) && as_data;
            if !unmarked {
                marked.insert(reply.value);
            }
            if self.is(Wrong::BornListed) {
                listed.insert(reply.value);
            }
        }
        let listed: Vec<usize> = listed.into_iter().collect();
        self.write(&marked, &listed, 1);
    }

    /// Owner, old and new object, where the store marks them. What is born is not among them.
    fn met(&self, before: &Memory, call: Call, written: &Memory) -> Firsts {
        let all = touched(before, call, written);
        let object = |v: Ref| named(self.blocks, before, v);
        let (owner, old, new) = match call {
            Call::StoreCell { a, j, .. } => {
                let place = 4 * a + j;
                let (old, new) = (before.cells[place], written.cells[place]);
                (Some(a), object(old), object(new))
            }
            Call::StoreRoot { r, .. } => (None, object(before.roots[r]), object(written.roots[r])),
            Call::Allocate { r, .. } | Call::AllocateData { r, .. } => {
                (None, object(before.roots[r]), None)
            }
            _ => return Firsts::new(),
        };
        let is_root = matches!(call, Call::StoreRoot { .. });
        if is_root && self.is(Wrong::RootStoresMarkNothing) {
            return Firsts::new();
        }
        if all.is_empty() && !self.is(Wrong::ValuePresentMarks) {
            return Firsts::new();
        }
        let marks = [
            owner.filter(|_| !self.is(Wrong::OwnerIsNotMarked)),
            old.filter(|_| !self.is(Wrong::OldIsNotMarked)),
            new.filter(|_| !self.is(Wrong::NewIsNotMarked)),
        ];
        marks.into_iter().flatten().collect()
    }

    fn apply(&mut self, call: Call) -> Reply {
        if let Some(reply) = self.first(call) {
            return reply;
        }
        let right = refused_first(self.blocks, self.width, self.memory, call);
        // What this heap lets pass: what it makes of it is not asked.
        if right.is_some() {
            return reply(0, 0, 0);
        }
        if self.is_out_of_turn(call) {
            return refused(14);
        }
        let (blocks, width) = (self.blocks, self.width);
        match call {
            Call::OpenCollection if self.is_open() => return reply(0, 0, 0),
            Call::OpenCollection => return self.open(),
            Call::StepCollection { .. } if !self.is_open() => return reply(0, 0, 0),
            Call::StepCollection { budget } => return self.step(budget),
            _ => {}
        }
        let before = self.memory.clone();
        let mut plain = self.plain();
        let reply = apply(blocks, width, &mut plain, call);
        if reply.number != 0 {
            return reply;
        }
        (plain.marks, plain.list) = (before.marks.clone(), before.list.clone());
        *self.memory = plain;
        if call == Call::Format {
            if !self.is(Wrong::FormatLeavesTheMarks) {
                self.memory.marks.fill(0);
            }
            if !self.is(Wrong::FormatLeavesTheList) {
                self.memory.list.fill(0);
            }
        } else if self.is_open() {
            self.mark(&before, call, reply);
        }
        reply
    }
}

/// Whether a heap gives something else than the model for a call.
fn differs(wrong: Wrong, bench: &Bench, call: Call) -> bool {
    let (blocks, width) = (bench.blocks, bench.width);
    let mut memory = bench.memory.clone();
    // A map or a list of another length can't be read: such a heap only answers.
    if misshapen(blocks, width, &memory) {
        match wrong {
            Wrong::AnyLengthOfTheMap => memory.marks.resize(blocks / 8, 0),
            Wrong::AnyLengthOfTheList => memory.list.resize(blocks + 1, 0),
            _ => {}
        }
        return !misshapen(blocks, width, &memory);
    }
    let mut right = bench.memory.clone();
    let due = apply(blocks, width, &mut right, call);
    let mut heap = Heap {
        wrong,
        blocks,
        width,
        memory: &mut memory,
    };
    let reply = heap.apply(call);
    (reply, &memory) != (due, &right)
}

/// Every call of the lists of U8 in the large file, with the heap before it.
fn each_of_the_lists(mut show: impl FnMut(&Bench, Call)) {
    let mut desk = Desk::new(Random::new(0), [8, 2, 4]);
    step_vectors(&mut desk);
    let mut bench = Bench::of_any_size(desk.header);
    for words in desk.entries {
        let entry = Entry::from_words(words);
        if let Entry::Call(call) = entry {
            // Large heaps show nothing more, and take long.
            if bench.blocks <= 32 {
                show(&bench, call);
            }
        }
        bench.carry_out(entry, apply);
    }
}

/// How many calls end otherwise, by what is wrong; and of how many.
fn told_apart(each: impl FnOnce(&mut dyn FnMut(&Bench, Call))) -> (Vec<usize>, usize) {
    let mut told = vec![0; WRONG.len()];
    let mut calls = 0;
    each(&mut |bench, call| {
        calls += 1;
        assert!(!differs(Wrong::Nothing, bench, call), "{call:?} {bench:?}");
        for (told, wrong) in told.iter_mut().zip(WRONG) {
            *told += usize::from(differs(*wrong, bench, call));
        }
    });
    (told, calls)
}

fn say_told((told, calls): (Vec<usize>, usize), what: &str) {
    let words: Vec<String> = WRONG
        .iter()
        .zip(&told)
        .map(|(wrong, told)| format!("{wrong:?} {told}"))
        .collect();
    let never: Vec<&Wrong> = WRONG
        .iter()
        .zip(&told)
        .filter(|(_, told)| **told == 0)
        .map(|(wrong, _)| wrong)
        .collect();
    assert!(never.is_empty(), "never told apart by {what}: {never:?}");
    say(&format!(
        "{} wrong readings of U8, calls of {calls} that end otherwise by {what}: {}",
        WRONG.len(),
        words.join(", ")
    ));
}

#[test]
fn the_lists_tell_wrong_readings_apart() {
    say_told(told_apart(|show| each_of_the_lists(show)), "the lists");
}

#[test]
fn random_lists_tell_wrong_readings_apart() {
    let told = told_apart(|show| {
        for (family, _) in FAMILIES {
            let seeds = if family == "steps" { 200 } else { 4 };
            for seed in 0..seeds {
                each_call(family, seed, 100, |bench, call| {
                    if bench.blocks <= 32 {
                        show(bench, call);
                    }
                });
            }
        }
    });
    say_told(told, "random lists");
}
