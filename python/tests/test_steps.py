"""Collection in small steps: opened, stepped, closed, with other calls between; and refused where marks and list are not right."""

from __future__ import annotations

import random
import unittest
from typing import Callable, Dict, List, Set, Tuple

from huwekapo import Heap, Look, Number, Refused, Stepped, objects

from .calls import FORMATTING, OTHERS, OUT_OF_TURN, buffers, lent

Lists = Dict[str, List[int]]


def progress(heap: Heap) -> Tuple[int, List[int]]:
    """The mark map of eight blocks, and the list up to its first 0."""
    places = heap.list.tolist()
    assert places[-1] == heap.is_open
    listed = places[: places.index(0)]
    assert not any(places[len(listed) : -1])
    return heap.marks[0], listed


def chain(width: int = 2, cells_of_4: Tuple[int, ...] = ()) -> Heap:
    """Root 0 names the object of 2 blocks at block 0, which names that at 2, which names that at 3. That at 4 names itself, and as
    further cells say."""
    heap = Heap(8, width, 4)
    assert [heap.allocate(2, 0), heap.allocate(1, 1), heap.allocate(1, 2), heap.allocate(1, 3)] == [0, 2, 3, 4]
    for at, j, v in [(0, 7, 3), (2, 1, 4), (4, 0, 5), *((4, 1 + j, v) for j, v in enumerate(cells_of_4))]:
        heap.store_cell(at, j, v)
    assert heap.return_roots(14) == 0
    return heap


def opened(width: int = 2, cells_of_4: Tuple[int, ...] = ()) -> Heap:
    heap = chain(width, cells_of_4)
    heap.open_collection()
    assert progress(heap) == (1, [1])
    return heap


class Steps(unittest.TestCase):
    #: The blocks allocated since the last opening.
    since: Set[int] = set()

    def test_opening(self) -> None:
        heap = chain()
        heap.allocate_data(1, 3)
        heap.store_root(1, 4)
        heap.store_root(2, 1)
        before = {**buffers(heap), "waiting": 8 * [99]}
        heap = Heap.from_buffers(8, 2, **before)
        self.assertFalse(heap.is_open)
        heap.open_collection()
        self.assertEqual(progress(heap), (0b10_1001, [1, 4, 6]))
        # Nothing else is written, the waiting list neither.
        self.assertEqual({**buffers(heap), "marks": [0], "list": 9 * [0]}, before)
        heap.check()

    def test_one_by_one(self) -> None:
        heap = opened()
        for marks, listed in [(0b101, [3]), (0b1101, [4])]:
            self.assertEqual(heap.step_collection(1), Stepped(steps=1, freed=0))
            self.assertEqual(progress(heap), (marks, listed))
        self.assertEqual(heap.step_collection(1), Stepped(steps=1, freed=1))
        self.assertEqual(progress(heap), (0, []))
        at_once = chain()
        self.assertEqual(at_once.collect(), 1)
        self.assertEqual(heap, at_once)

    def test_budgets(self) -> None:
        for budget in [1, 2, 3, 4, 100, 2**64 - 1]:
            heap, left = opened(), 3
            while heap.is_open:
                steps, freed = heap.step_collection(budget)
                self.assertEqual((steps, freed), (min(budget, left), int(not heap.is_open)))
                left -= steps
            self.assertEqual(left, 0)
        with self.assertRaises(OverflowError):
            opened().step_collection(-1)

    def test_budget_of_none(self) -> None:
        heap = opened()
        self.assertEqual(heap.step_collection(0), (0, 0))
        self.assertEqual(heap, opened())
        none = Heap(8, 2, 4)
        none.open_collection()
        self.assertEqual((none.step_collection(0), none.is_open), ((0, 0), True))
        self.assertEqual((none.step_collection(1), none.is_open), ((0, 0), False))
        self.assertEqual(none, Heap(8, 2, 4))

    def test_other_calls_meanwhile(self) -> None:
        # Born marked; the owner, the old and the new object of a store; what a freed object's cells named.
        heap = opened()
        self.assertEqual((heap.allocate(1, 1), heap.allocate_data(2, 2), progress(heap)), (5, 6, (0b110_0001, [1])))
        heap = opened()
        self.assertEqual((heap.store_cell(2, 0, 4), progress(heap)), (0, (0b1101, [1, 3, 4])))
        heap = opened(cells_of_4=(3,))
        self.assertEqual((heap.store_cell(0, 7, 0), progress(heap)), (0, (0b101, [1, 3])))
        heap = opened(cells_of_4=(3,))
        self.assertEqual((heap.store_cell(4, 0, 0), progress(heap)), (1, (0b101, [1, 3])))
        # A store of the value present marks nothing; a freed object leaves map and list.
        heap = opened()
        self.assertEqual((heap.store_cell(2, 1, 4), progress(heap)), (0, (1, [1])))
        self.assertEqual((heap.return_roots(1), progress(heap)), (4, (0, [])))
        self.assertEqual((heap.step_collection(9), heap.free_blocks()), ((0, 1), 8))

    def test_close(self) -> None:
        # A survivor is counted down once for each cell that is freed; one that comes to 0 is freed with what it names.
        heap = opened(3, (3, 3, 4))
        self.assertEqual((heap.look(2), heap.step_collection(9), heap.look(2)), (Look(1, 3), (3, 1), Look(1, 1)))
        heap = opened(3, (3,))
        self.assertEqual((heap.step_collection(1), heap.store_cell(0, 7, 0)), ((1, 0), 0))
        self.assertEqual((heap.step_collection(9), heap.free_blocks()), ((2, 3), 6))

    def test_copies_and_formats(self) -> None:
        heap = opened()
        other = heap.copy()
        self.assertTrue(other.is_open and other == heap)
        other.step_collection(1)
        self.assertNotEqual(other, heap)
        heap.format()
        self.assertEqual((heap.is_open, heap), (False, Heap(8, 2, 4)))

    def test_among_other_calls(self) -> None:
        met = {"closed": 0, "freed": 0, "garbage": 0}
        for blocks, width in [(8, 1), (16, 2), (64, 3), (256, 2)]:
            dice, heap = random.Random(blocks), Heap(blocks, width, 8)
            taken = most = 0
            unnamed: Set[int] = set()
            for _ in range(300):
                if heap.is_open and dice.random() < 0.6:
                    steps, freed = heap.step_collection(dice.randrange(4))
                    taken += steps
                    # "The steps from open to close never exceed the objects present at the opening."
                    self.assertLessEqual(taken, most)
                    if not heap.is_open:
                        # What no root led to at the opening is gone: no call here can reach it.
                        self.assertFalse(unnamed & (objects(heap).keys() - self.since))
                        met["closed"] += 1
                        met["freed"] += freed > 0
                        met["garbage"] += bool(unnamed)
                elif not heap.is_open and dice.random() < 0.3:
                    taken, most = 0, len(objects(heap))
                    at_once = heap.copy()
                    at_once.collect()
                    unnamed = objects(heap).keys() - objects(at_once).keys()
                    self.since = set()
                    heap.open_collection()
                else:
                    self.some_call(dice, heap)
                heap.check()
        self.assertTrue(all(count > 20 for count in met.values()), met)

    def some_call(self, dice: random.Random, heap: Heap) -> None:
        root, value = dice.randrange(8), heap.roots[dice.randrange(8)]
        kind, size = dice.randrange(8), dice.randint(1, 3)
        try:
            if kind < 5:
                self.since.add((heap.allocate_data if kind == 4 else heap.allocate)(size, root))
            elif kind == 5 and heap.roots[root]:
                heap.store_cell(heap.roots[root] - 1, dice.randrange(4), value)
            else:
                heap.store_root(root, value if kind == 6 else 0)
        except Refused as refused:
            self.assertIn(refused.number, (Number.NO_CHUNK, Number.WRONG_KIND))


class Refusals(unittest.TestCase):
    def refused(self, name: str, given: Lists, number: int) -> None:
        """A call is refused, and writes nothing."""
        heap = Heap.from_buffers(8, 2, **given)
        with self.subTest(call=name, marks=given["marks"], list=given["list"]):
            with self.assertRaises(Refused) as caught:
                {**FORMATTING, **OTHERS}[name](heap)
            self.assertEqual(caught.exception.number, number)
            self.assertEqual(buffers(heap), given)

    def test_out_of_turn(self) -> None:
        for is_open, names in OUT_OF_TURN.items():
            for name, call in OTHERS.items():
                given = lent(8, is_open)
                if name not in names:
                    call(Heap.from_buffers(8, 2, **given))
                    continue
                self.refused(name, given, Number.OUT_OF_TURN)
                given["marks"][0] ^= 16
                self.refused(name, given, Number.BAD_MARKS)
        self.assertIn("14 OUT_OF_TURN: a step while no collection is open;", str(Refused(14)))

    def test_every_clause(self) -> None:
        # Where one is open the list is 1, 2, both are marked, and the object at 2, which that at 0 names, is not.
        places: Callable[..., List[int]] = lambda *first, last=1: [*first, *((8 - len(first)) * [0]), last]
        for is_open, marks, listed in [
            (True, 3, places(2, 1)),
            (True, 3, places(1, 1, 2)),
            (True, 3, places(0, 1, 2)),
            (True, 3, places(1, 2, 4)),
            (True, 3, places(1, 2, 9)),
            (True, 3, places(1, 2, 3)),
            (True, 3 | 8, places(1, 2)),
            (True, 2, places(2)),
            (True, 3, places(2)),
            (True, 3, places(1, 2, last=2)),
            (True, 3, places(1, 2, last=0)),
            (False, 1, places(last=0)),
            (False, 0, places(1, last=0)),
            (False, 0, places(last=2**32 - 1)),
        ]:
            given = {**lent(8, is_open), "marks": [marks], "list": listed}
            for name in OTHERS:
                self.refused(name, given, Number.BAD_MARKS)
            for call in FORMATTING.values():
                heap = Heap.from_buffers(8, 2, **given)
                call(heap)
                self.assertEqual(heap, Heap(8, 2, 4))
            # Next after 11.
            self.refused("check", {**given, "sections": [8]}, Number.STALE_SECTIONS)
        for marks, listed in [(7, places(1, 2, 3)), (7, places(3)), (7, places()), (3, places(1))]:
            Heap.from_buffers(8, 2, **{**lent(8, True), "marks": [marks], "list": listed}).check()

    def test_wrong_lengths(self) -> None:
        for change in [{"marks": []}, {"marks": [0, 0]}, {"list": 8 * [0]}, {"list": 10 * [0]}]:
            given = {**lent(8), **change}
            for name in {**FORMATTING, **OTHERS}:
                self.refused(name, given, Number.MISSHAPEN)
            self.assertFalse(Heap.from_buffers(8, 2, **given).is_open)


if __name__ == "__main__":
    unittest.main()
